//! The proved library through its C boundary, by the declarations of `wurzsige-sys`.
//!
//! This file has all unsafe code of the package.

#![allow(unsafe_code)]

use reference::lent::Told;
use wurzsige_sys::{parts, HELD_WORDS, NUMBERS, WORKING};

use crate::library::Library;
use crate::memory::{Fenced, Memory};

/// What stands where the library is to write an answer, and in the working memory: neither
/// means anything before a call.
const MEANINGLESS: u8 = 0xc3;

/// The proved library.
pub struct Proved;

/// The working memory of a query.
struct Working {
    counts: [u64; WORKING],
    places: [u16; WORKING],
}

impl Working {
    fn new() -> Working {
        Working {
            counts: [MEANINGLESS.into(); WORKING],
            places: [MEANINGLESS.into(); WORKING],
        }
    }
}

/// Calls a function that takes a whole state: what it is given before the state, the
/// memory, and what it is given behind the design, of which what is held is the first.
macro_rules! call {
    ($function:ident($($before:expr),*), $memory:expr, ($($behind:expr),*)) => {
        // SAFETY: each pointer goes with its buffer's length, and no two buffers overlap. A
        // trusted step's state is as an opening or a step that wasn't refused has left it.
        unsafe {
            parts::$function(
                $($before,)*
                $memory.cells.lent_mut().as_mut_ptr(),
                $memory.cells.length(),
                $memory.issues.lent_mut().as_mut_ptr(),
                $memory.issues.length(),
                $memory.tables.lent_mut().as_mut_ptr(),
                $memory.tables.length(),
                array(&mut $memory.catalog.rows),
                array(&mut $memory.catalog.keys),
                $memory.marks.lent_mut().as_mut_ptr(),
                $memory.marks.length(),
                $memory.design.lent_mut().as_mut_ptr(),
                $memory.design.length(),
                $($behind,)*
            )
        }
    };
}

/// Calls such a function that tells an answer behind all that.
macro_rules! tell {
    ($function:ident $before:tt, $memory:expr, ($($behind:expr),*)) => {{
        let mut told = meaningless();
        told.word = call!(
            $function $before,
            $memory,
            (
                $($behind,)*
                &mut told.numbers,
                &mut told.count,
                &mut told.place,
                &mut told.next,
                &mut told.more
            )
        );
        told
    }};
}

/// Calls a function that only reads a state.
macro_rules! read {
    ($function:ident($($before:expr),*), $memory:expr, ($($behind:expr),*)) => {
        // SAFETY: each pointer goes with its buffer's length, and what is written doesn't
        // overlap anything.
        unsafe {
            parts::$function(
                $($before,)*
                $memory.cells.lent().as_ptr(),
                $memory.cells.length(),
                $memory.issues.lent().as_ptr(),
                $memory.issues.length(),
                $memory.tables.lent().as_ptr(),
                $memory.tables.length(),
                $memory.marks.lent().as_ptr(),
                $memory.marks.length(),
                $memory.design.lent().as_ptr(),
                $memory.design.length(),
                $memory.held.lent().as_ptr(),
                $memory.held.length(),
                $($behind,)*
            )
        }
    };
}

impl Library for Proved {
    fn name(&self) -> &str {
        "the proved library"
    }

    fn open(&self, script: &[u8], memory: &mut Memory) -> Told {
        tell!(
            wurzsige_parts_open(script.as_ptr(), script.len()),
            memory,
            (memory.held.lent_mut().as_mut_ptr(), memory.held.length())
        )
    }

    fn step(&self, script: &[u8], at: usize, memory: &mut Memory) -> Told {
        tell!(
            wurzsige_parts_step(script.as_ptr(), script.len(), at),
            memory,
            (
                memory.held.lent_mut().as_mut_ptr(),
                memory.held.length(),
                memory.words.lent_mut().as_mut_ptr(),
                memory.words.length(),
                memory.text.lent_mut().as_mut_ptr(),
                memory.text.length()
            )
        )
    }

    fn step_trusted(&self, script: &[u8], at: usize, memory: &mut Memory) -> Told {
        let mut working = Working::new();
        tell!(
            wurzsige_parts_step_trusted(script.as_ptr(), script.len(), at),
            memory,
            (
                record(&mut memory.held),
                memory.words.lent_mut().as_mut_ptr(),
                memory.words.length(),
                memory.text.lent_mut().as_mut_ptr(),
                memory.text.length(),
                &mut working.counts,
                &mut working.places
            )
        )
    }

    fn run_trusted(&self, script: &[u8], at: usize, memory: &mut Memory) {
        let mut working = Working::new();
        call!(
            wurzsige_parts_run_trusted(script.as_ptr(), script.len(), at),
            memory,
            (
                record(&mut memory.held),
                memory.words.lent_mut().as_mut_ptr(),
                memory.words.length(),
                memory.text.lent_mut().as_mut_ptr(),
                memory.text.length(),
                &mut working.counts,
                &mut working.places
            )
        );
    }

    fn write(&self, memory: &mut Memory) -> u8 {
        read!(
            wurzsige_parts_write(),
            memory,
            (
                memory.out.lent_mut().as_mut_ptr(),
                memory.out.length(),
                &mut memory.written
            )
        )
    }

    fn sizes(&self, script: &[u8], at: usize, memory: &mut Memory) -> u8 {
        read!(
            wurzsige_parts_sizes(script.as_ptr(), script.len(), at),
            memory,
            (&mut memory.sizes)
        )
    }
}

/// A buffer of a fixed length.
fn array<T: Copy + From<u8>, const LENGTH: usize>(buffer: &mut Fenced<T>) -> &mut [T; LENGTH] {
    let array = buffer.lent_mut().try_into();
    array.unwrap_or_else(|_| panic!("the boundary takes {LENGTH} items"))
}

/// The words of what is held, of a buffer that may have more: a trusted step asks for
/// these alone.
fn record(held: &mut Fenced<u32>) -> &mut [u32; HELD_WORDS] {
    let words = held.lent_mut().first_chunk_mut();
    words.expect("a state that was worked on has the words of what is held")
}

/// An answer that no call has told yet: each part of it has to be written.
fn meaningless() -> Told {
    Told {
        word: MEANINGLESS,
        numbers: [MEANINGLESS.into(); NUMBERS],
        count: MEANINGLESS,
        place: MEANINGLESS.into(),
        next: MEANINGLESS.into(),
        more: MEANINGLESS,
    }
}
