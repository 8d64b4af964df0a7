//! The proved library through its C boundary, by the declarations of `wurzsige-sys`.
//!
//! This file has all unsafe code of the package.

#![allow(unsafe_code)]

use reference::lent::{Lent, Told};
use wurzsige_sys::{parts, CATALOG, HELD_WORDS, KEYS, NUMBERS};

use crate::library::{FetchWords, Library, VerdictWords};

/// The proved library.
pub struct Proved;

/// The catalog of a state's rows.
struct Catalog {
    catalog: [u16; CATALOG],
    keys: [u64; KEYS],
}

impl Catalog {
    fn empty() -> Catalog {
        Catalog {
            catalog: [0; CATALOG],
            keys: [0; KEYS],
        }
    }

    /// That of a sound state, left by a step that changes nothing.
    fn of(lent: &Lent) -> Catalog {
        let mut catalog = Catalog::empty();
        let told = step(&[0x14], &mut lent.clone(), &mut [], &mut catalog);
        assert_eq!(told.cause(), None, "a state that isn't sound");
        catalog
    }
}

fn step(command: &[u8], lent: &mut Lent, words: &mut [u32], catalog: &mut Catalog) -> Told {
    let mut told = Told {
        word: 0,
        numbers: [0; NUMBERS],
        count: 0,
        place: 0,
        next: 0,
        more: 0,
    };
    let text: &mut [u8] = &mut [];
    // SAFETY: each pointer goes with its buffer's length, and no two buffers overlap.
    told.word = unsafe {
        parts::wurzsige_parts_step(
            command.as_ptr(),
            command.len(),
            0,
            lent.cells.as_mut_ptr(),
            lent.cells.len(),
            lent.issues.as_mut_ptr(),
            lent.issues.len(),
            lent.tables.as_mut_ptr(),
            lent.tables.len(),
            &mut catalog.catalog,
            &mut catalog.keys,
            lent.marks.as_mut_ptr(),
            lent.marks.len(),
            lent.design.as_ptr(),
            lent.design.len(),
            lent.held.as_mut_ptr(),
            lent.held.len(),
            words.as_mut_ptr(),
            words.len(),
            text.as_mut_ptr(),
            text.len(),
            &mut told.numbers,
            &mut told.count,
            &mut told.place,
            &mut told.next,
            &mut told.more,
        )
    };
    told
}

impl Library for Proved {
    fn name(&self) -> &str {
        "the proved library"
    }

    fn step(&self, command: &[u8], lent: &mut Lent, words: &mut [u32]) -> Told {
        step(command, lent, words, &mut Catalog::empty())
    }

    fn missing(&self, lent: &Lent, fetches: &[u32], count: usize, fetch: &mut FetchWords) -> u8 {
        // SAFETY: each pointer goes with its buffer's length, and what is written doesn't
        // overlap anything.
        unsafe {
            parts::wurzsige_parts_missing(
                lent.cells.as_ptr(),
                lent.cells.len(),
                lent.issues.as_ptr(),
                lent.issues.len(),
                lent.tables.as_ptr(),
                lent.tables.len(),
                lent.marks.as_ptr(),
                lent.marks.len(),
                lent.design.as_ptr(),
                lent.design.len(),
                lent.held.as_ptr(),
                lent.held.len(),
                fetches.as_ptr(),
                fetches.len(),
                count,
                fetch,
            )
        }
    }

    fn missing_trusted(
        &self,
        lent: &Lent,
        fetches: &[u32],
        count: usize,
        fetch: &mut FetchWords,
    ) -> u8 {
        let catalog = Catalog::of(lent);
        let held: &[u32; HELD_WORDS] = lent.held.first_chunk().expect("a sound state");
        // SAFETY: as in `missing`; the state is sound, and the catalog is that of its rows.
        unsafe {
            parts::wurzsige_parts_missing_trusted(
                lent.cells.as_ptr(),
                lent.cells.len(),
                lent.issues.as_ptr(),
                lent.issues.len(),
                lent.tables.as_ptr(),
                lent.tables.len(),
                &catalog.catalog,
                &catalog.keys,
                lent.marks.as_ptr(),
                lent.marks.len(),
                lent.design.as_ptr(),
                lent.design.len(),
                held,
                fetches.as_ptr(),
                fetches.len(),
                count,
                fetch,
            )
        }
    }

    fn verdicts(&self, design: &[u32], verdicts: &mut VerdictWords) -> u8 {
        // SAFETY: as in `missing`.
        unsafe { parts::wurzsige_parts_verdicts(design.as_ptr(), design.len(), verdicts) }
    }
}
