//! Jobs done by several threads.

use std::sync::atomic::{AtomicBool, AtomicU64, Ordering};
use std::thread;

/// The threads at most.
const WORKERS: usize = 2;
/// The stack of each: what a program's main thread usually has. Generators and second readers go deep; the
/// library is called on threads with less, see `stack`.
const STACK: usize = 8 << 20;

/// Does the jobs 0, 1, 2 and so on, until one of them says that there is no need to go on.
pub fn work(job: impl Fn(u64) -> bool + Sync) {
    let next = AtomicU64::new(0);
    let ended = AtomicBool::new(false);
    let worker = || {
        while !ended.load(Ordering::Relaxed) {
            let go_on = job(next.fetch_add(1, Ordering::Relaxed));
            ended.fetch_or(!go_on, Ordering::Relaxed);
        }
    };
    let workers = thread::available_parallelism().map_or(1, |n| n.get());
    thread::scope(|scope| {
        for _ in 0..workers.min(WORKERS) {
            thread::Builder::new()
                .stack_size(STACK)
                .spawn_scoped(scope, worker)
                .expect("a thread");
        }
    });
}

#[cfg(test)]
mod tests {
    use super::*;
    use std::sync::Mutex;

    #[test]
    fn every_job_once() {
        let done = Mutex::new(Vec::new());
        work(|job| {
            if job < 100 {
                done.lock().unwrap().push(job);
            }
            job < 100
        });
        let mut done = done.into_inner().unwrap();
        done.sort();
        assert_eq!(done, (0..100).collect::<Vec<_>>());
    }
}
