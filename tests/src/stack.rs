//! The library's calls are made on threads with as much stack as the header states, so that a call which
//! needs more ends the comparison.

use std::sync::mpsc::{channel, Sender};
use std::thread;

const HEADER: &str = include_str!("../../include/comzsered.h");

/// What such a thread's stack holds besides a call: what the system keeps at its upper end, and the functions of
/// a comparison from the thread's first one down to the call. These take some 10 KB.
const BESIDES: usize = 12 << 10;

/// The bytes of stack that a call needs at most, as the header states it.
fn stated() -> usize {
    let after = HEADER.split("#define COMZSERED_STACK ").nth(1);
    let number = after.and_then(|text| text.lines().next());
    let bytes = number.and_then(|number| number.parse().ok());
    bytes.expect("a number of bytes")
}

type Calls = Box<dyn FnOnce() + Send>;

thread_local! {
    /// Every thread has another one that makes its calls.
    static CALLER: Sender<Calls> = caller();
}

fn caller() -> Sender<Calls> {
    let (sender, receiver) = channel::<Calls>();
    let make = move || receiver.into_iter().for_each(|calls| calls());
    let thread = thread::Builder::new().stack_size(stated() + BESIDES);
    thread.spawn(make).expect("a thread");
    sender
}

/// Makes calls on a thread with the stack that the header states.
pub fn on_stated_stack<T: Send + 'static>(calls: impl FnOnce() -> T + Send + 'static) -> T {
    let (sender, receiver) = channel();
    let calls = move || sender.send(calls()).expect("somebody who waits for it");
    let sent = CALLER.with(|caller| caller.send(Box::new(calls)));
    sent.expect("a thread that goes on");
    receiver.recv().expect("calls that end")
}

#[cfg(test)]
mod tests {
    use super::*;

    #[test]
    fn calls_are_made_by_another_thread() {
        assert!(stated() > BESIDES);
        let here = thread::current().id();
        let there = || on_stated_stack(|| thread::current().id());
        assert_ne!(there(), here);
        assert_eq!(there(), there());
    }
}
