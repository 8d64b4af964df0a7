//! How much stack a call touches: a thread's stack is painted below the caller's frame,
//! and looked at after the call.

#![allow(unsafe_code)]

use std::hint::black_box;
use std::ptr::{with_exposed_provenance, with_exposed_provenance_mut};
use std::thread;

/// The stack of the thread that makes the call.
const STACK: usize = 8 << 20;

/// How much of it is painted. The rest is for what runs before and after the call.
const PAINTED: usize = 6 << 20;

/// What the painting itself takes below the frame that it begins at.
const GAP: usize = 4 << 10;

const WORD: usize = size_of::<u64>();

/// The bytes of stack that a call touches below the frame of its caller, to the next
/// eight, and [`GAP`] at least.
pub fn touched(call: impl FnOnce() + Send) -> usize {
    thread::scope(|scope| {
        let thread = thread::Builder::new().stack_size(STACK);
        let touched = thread.spawn_scoped(scope, || measure(call));
        let touched = touched.expect("a thread").join();
        touched.expect("a call that ends")
    })
}

#[inline(never)]
fn measure(call: impl FnOnce()) -> usize {
    let frame = 0_u64;
    let top = black_box(&raw const frame).expose_provenance();
    paint(top);
    call();
    top - lowest(top)
}

/// What is painted at an address: something that hardly stands there by chance.
fn colour(address: usize) -> u64 {
    (address as u64 ^ 0x5bd1_e995).wrapping_mul(0x9e37_79b9_7f4a_7c15)
}

fn painted(top: usize) -> impl Iterator<Item = usize> {
    (top - PAINTED..top - GAP).step_by(WORD)
}

#[inline(never)]
fn paint(top: usize) {
    for address in painted(top) {
        // SAFETY: the thread's stack is mapped so far down, and nothing lives there: this
        // function and what it calls end within GAP.
        unsafe { with_exposed_provenance_mut::<u64>(address).write_volatile(colour(address)) };
    }
}

/// The lowest address that has another colour now.
#[inline(never)]
fn lowest(top: usize) -> usize {
    let mut other = painted(top).filter(|&address| {
        // SAFETY: as for painting.
        let found = unsafe { with_exposed_provenance::<u64>(address).read_volatile() };
        found != colour(address)
    });
    other.next().unwrap_or(top - GAP)
}

#[cfg(test)]
mod tests {
    use super::*;

    #[inline(never)]
    fn fill<const BYTES: usize>() {
        black_box(&mut [7_u8; BYTES]);
    }

    #[test]
    fn what_a_call_touches_is_found() {
        assert_eq!(touched(|| ()), GAP);
        for (found, bytes) in [
            (touched(fill::<20_000>), 20_000),
            (touched(fill::<300_000>), 300_000),
            (touched(fill::<3_000_000>), 3_000_000),
        ] {
            assert!(found >= bytes && found < bytes + 2 * GAP, "{found}");
        }
    }
}
