//! How much stack a call uses: the stack below is painted, the call made, and the lowest word sought
//! that is no longer as painted.

use std::arch::asm;
use std::thread;

/// The stack that is painted, and that of the thread.
const PAINTED: usize = 1 << 20;
const STACK: usize = 4 << 20;
const PAINT: u64 = 0xa5c3_96f0_5a3c_690f;

/// Bytes from where the call is made down to the lowest word that it changed.
pub fn used(call: impl FnOnce() + Send + 'static) -> usize {
    let measure = move || below(call);
    let thread = thread::Builder::new().stack_size(STACK).spawn(measure);
    thread.expect("a thread").join().expect("a call that ends")
}

#[inline(never)]
fn below(call: impl FnOnce()) -> usize {
    let top: usize;
    // SAFETY: only reads the stack pointer.
    unsafe { asm!("mov {}, rsp", out(reg) top, options(nomem, nostack, preserves_flags)) };
    let top = top & !7;
    let bottom = top - PAINTED;
    paint(bottom, top - 256);
    call();
    let lowest = lowest_changed(bottom, top);
    assert!(lowest > bottom, "more stack than was painted");
    top - lowest
}

// Both only touch the thread's own stack, below what is in use: it is four times as large as what is
// painted. No other function runs meanwhile. Their own frames lie in the 256 bytes left out.

#[inline(always)]
fn paint(bottom: usize, top: usize) {
    for at in (bottom..top).step_by(8) {
        // SAFETY: as above.
        unsafe { (at as *mut u64).write_volatile(PAINT) };
    }
}

#[inline(always)]
fn lowest_changed(bottom: usize, top: usize) -> usize {
    let mut at = bottom;
    // SAFETY: as above.
    while at < top && unsafe { (at as *const u64).read_volatile() } == PAINT {
        at += 8;
    }
    at
}
