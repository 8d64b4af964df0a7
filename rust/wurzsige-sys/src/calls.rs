//! The functions on a whole desk, as the header has them.

use crate::cause::OTHER_VERSION;
use crate::memory::Memory;
use crate::parts;
use crate::told::{Sizes, Told};
use crate::version::{VERSION, library_version};
use crate::word::REFUSED;

/// A call of a step or a run on a desk. They take the same operands up to the text, but
/// for the held words, which the trusted ones take as an array; what each takes behind
/// the text is given.
macro_rules! call {
    ($function:ident, $desk:expr, ($($held:expr),+), $script:expr, $at:expr, $words:expr, $text:expr $(, $more:expr)*) => {
        parts::$function(
            $script.as_ptr(),
            $script.len(),
            $at,
            $desk.cells.as_mut_ptr(),
            $desk.cells.len(),
            $desk.issues.as_mut_ptr(),
            $desk.issues.len(),
            $desk.tables.as_mut_ptr(),
            $desk.tables.len(),
            &mut $desk.catalog,
            &mut $desk.keys,
            $desk.marks.as_mut_ptr(),
            $desk.marks.len(),
            $desk.design.as_ptr(),
            $desk.design.len(),
            $($held,)+
            $words.as_mut_ptr(),
            $words.len(),
            $text.as_mut_ptr(),
            $text.len(),
            $($more,)*
        )
    };
}

impl Memory {
    /// Opens the design at the start of a script. The word is [`crate::word::DESIGN`],
    /// or [`crate::word::REFUSED`], which leaves the memory as it was. What stood there
    /// before is free.
    ///
    /// ```
    /// use wurzsige_sys::{word, Memory};
    ///
    /// // A table of two columns, and nothing else: one table, no constraint, filling or row.
    /// let told = Memory::boxed().open(&[0x01, 2, 0, 0x05]);
    /// assert_eq!((told.word, told.numbers[..4].to_vec()), (word::DESIGN, vec![1, 0, 0, 0]));
    /// assert_eq!((told.next, told.more), (4, 1));
    /// ```
    pub fn open(&mut self, script: &[u8]) -> Told {
        if let Some(told) = other_version(library_version(), 0) {
            return told;
        }
        let mut told = Told::default();
        // SAFETY: each pointer goes with its slice's length, and the fields of a struct
        // don't overlap.
        told.word = unsafe {
            parts::wurzsige_parts_open(
                script.as_ptr(),
                script.len(),
                self.cells.as_mut_ptr(),
                self.cells.len(),
                self.issues.as_mut_ptr(),
                self.issues.len(),
                self.tables.as_mut_ptr(),
                self.tables.len(),
                &mut self.catalog,
                &mut self.keys,
                self.marks.as_mut_ptr(),
                self.marks.len(),
                self.design.as_mut_ptr(),
                self.design.len(),
                self.held.as_mut_ptr(),
                self.held.len(),
                &mut told.numbers,
                &mut told.count,
                &mut told.place,
                &mut told.next,
                &mut told.more,
            )
        };
        told
    }

    /// Takes the step at place `at` of a script on whatever stands here: causes 7 and 12
    /// first. If it isn't refused, this is a desk from then on. A refusal, whatever its
    /// cause, leaves everything as it was.
    ///
    /// ```
    /// use wurzsige_sys::{cause, word, Memory};
    ///
    /// let mut memory = Memory::boxed();
    /// let told = memory.step(&[0x14], 0, &mut [], &mut []);
    /// assert_eq!((told.word, told.numbers[0]), (word::REFUSED, cause::UNLAWFUL.into()));
    /// memory.open(&[0x01, 2, 0, 0x05]);
    /// assert_eq!(memory.step(&[0x14], 0, &mut [], &mut []).word, word::EVEN);
    /// ```
    pub fn step(&mut self, script: &[u8], at: usize, words: &mut [u32], text: &mut [u8]) -> Told {
        if let Some(told) = other_version(library_version(), at) {
            return told;
        }
        let mut told = Told::default();
        // SAFETY: as in `open`.
        told.word = unsafe {
            call!(
                wurzsige_parts_step,
                self,
                (self.held.as_mut_ptr(), self.held.len()),
                script,
                at,
                words,
                text,
                &mut told.numbers,
                &mut told.count,
                &mut told.place,
                &mut told.next,
                &mut told.more
            )
        };
        told
    }

    /// The same without the tests for causes 7 and 12.
    ///
    /// # Safety
    ///
    /// This is a desk, or a copy of one: [`Memory::open`] has accepted a design there, or
    /// [`Memory::step`] has taken a step there that wasn't refused, and since then only
    /// functions of this crate that don't end in `_mut` have written it.
    ///
    /// ```
    /// use wurzsige_sys::{word, Memory};
    ///
    /// let mut memory = Memory::boxed();
    /// assert_eq!(memory.open(&[0x01, 2, 0, 0x05]).word, word::DESIGN);
    /// // SAFETY: a design was opened there.
    /// let told = unsafe { memory.step_trusted(&[0x17, 2], 0, &mut [], &mut []) };
    /// assert_eq!((told.word, told.numbers[0]), (word::DESK, 2));
    /// ```
    pub unsafe fn step_trusted(
        &mut self,
        script: &[u8],
        at: usize,
        words: &mut [u32],
        text: &mut [u8],
    ) -> Told {
        let mut told = Told::default();
        // SAFETY: as in `open`, and it is a desk.
        told.word = unsafe {
            call!(
                wurzsige_parts_step_trusted,
                self,
                (&mut self.held),
                script,
                at,
                words,
                text,
                &mut self.counts,
                &mut self.places,
                &mut told.numbers,
                &mut told.count,
                &mut told.place,
                &mut told.next,
                &mut told.more
            )
        };
        told
    }

    /// Takes all steps from place `at` on, until the script ends or a step stops, and
    /// tells no answers: the words are the last query's, the text is the last reason's.
    ///
    /// # Safety
    ///
    /// This is a desk, as [`Memory::step_trusted`] asks.
    ///
    /// ```
    /// use wurzsige_sys::{word, Memory};
    ///
    /// // Desk 2 is named, then desk 3.
    /// let script = [0x01, 2, 0, 0x05, 0x17, 2, 0x17, 3];
    /// let mut memory = Memory::boxed();
    /// let told = memory.open(&script);
    /// assert_eq!(told.word, word::DESIGN);
    /// // SAFETY: a design was opened there.
    /// unsafe { memory.run_trusted(&script, told.next, &mut [], &mut []) };
    /// assert_eq!(memory.held()[0], 3);
    /// ```
    pub unsafe fn run_trusted(
        &mut self,
        script: &[u8],
        at: usize,
        words: &mut [u32],
        text: &mut [u8],
    ) {
        // SAFETY: as in `open`, and it is a desk.
        unsafe {
            call!(
                wurzsige_parts_run_trusted,
                self,
                (&mut self.held),
                script,
                at,
                words,
                text,
                &mut self.counts,
                &mut self.places
            )
        }
    }

    /// Writes the design with its rows from the first byte on, as a script that reads as
    /// it: the number of bytes, or the cause of a refusal, which leaves `out` as it was.
    ///
    /// ```
    /// use wurzsige_sys::{cause, Memory};
    ///
    /// let mut memory = Memory::boxed();
    /// memory.open(&[0x01, 2, 0, 0x05]);
    /// let mut out = [0; 10];
    /// assert_eq!(memory.write(&mut out), Ok(4));
    /// assert_eq!(out[..5], [0x01, 2, 0, 0x05, 0]);
    /// assert_eq!(memory.write(&mut out[..3]), Err(cause::TOO_SHORT));
    /// ```
    pub fn write(&self, out: &mut [u8]) -> Result<usize, u8> {
        if library_version() != VERSION {
            return Err(OTHER_VERSION);
        }
        let mut written = 0;
        // SAFETY: as in `open`.
        let cause = unsafe {
            parts::wurzsige_parts_write(
                self.cells.as_ptr(),
                self.cells.len(),
                self.issues.as_ptr(),
                self.issues.len(),
                self.tables.as_ptr(),
                self.tables.len(),
                self.marks.as_ptr(),
                self.marks.len(),
                self.design.as_ptr(),
                self.design.len(),
                self.held.as_ptr(),
                self.held.len(),
                out.as_mut_ptr(),
                out.len(),
                &mut written,
            )
        };
        match cause {
            0 => Ok(written),
            cause => Err(cause),
        }
    }

    /// Tells how many bytes the written design has, and how many words and bytes of text
    /// the step at place `at` would write if they were lent; or cause 7 or 12. There are
    /// none for what is no operation, is sent, is refused for another cause than 11, or
    /// stands in a script of over 65,536 bytes.
    ///
    /// ```
    /// use wurzsige_sys::Memory;
    ///
    /// let mut memory = Memory::boxed();
    /// memory.open(&[0x01, 2, 0, 0x05]);
    /// assert_eq!(memory.sizes(&[], 0).map(|sizes| sizes.bytes), Ok(4));
    /// ```
    pub fn sizes(&self, script: &[u8], at: usize) -> Result<Sizes, u8> {
        if library_version() != VERSION {
            return Err(OTHER_VERSION);
        }
        let mut told = [0; 3];
        // SAFETY: as in `open`.
        let cause = unsafe {
            parts::wurzsige_parts_sizes(
                script.as_ptr(),
                script.len(),
                at,
                self.cells.as_ptr(),
                self.cells.len(),
                self.issues.as_ptr(),
                self.issues.len(),
                self.tables.as_ptr(),
                self.tables.len(),
                self.marks.as_ptr(),
                self.marks.len(),
                self.design.as_ptr(),
                self.design.len(),
                self.held.as_ptr(),
                self.held.len(),
                &mut told,
            )
        };
        let [bytes, words, text] = told;
        match cause {
            0 => Ok(Sizes { bytes, words, text }),
            cause => Err(cause),
        }
    }
}

/// What a call tells in the place of an answer if the library is of another version.
fn other_version(linked: u32, at: usize) -> Option<Told> {
    if linked == VERSION {
        return None;
    }
    let mut told = Told {
        word: REFUSED,
        count: 2,
        next: at,
        ..Told::default()
    };
    told.numbers[0] = OTHER_VERSION.into();
    told.numbers[1] = linked.into();
    Some(told)
}

#[cfg(test)]
mod tests {
    use super::*;

    #[test]
    fn a_library_of_another_version_is_told() {
        assert_eq!(other_version(VERSION, 7), None);
        let told = other_version(VERSION + 1, 7).expect("a refusal");
        assert_eq!((told.word, told.count), (REFUSED, 2));
        assert_eq!(told.numbers[..3], [255, u64::from(VERSION) + 1, 0]);
        assert_eq!((told.place, told.next, told.more), (0, 7, 0));
    }
}
