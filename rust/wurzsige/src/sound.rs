//! Memory that is known to be a desk: the one file that calls what asks for that.

#![allow(unsafe_code)]

use alloc::boxed::Box;

use wurzsige_sys::{FETCH_WORDS, Memory, Told, word};

use crate::answer::refusal;
use crate::command::Command;
use crate::refusal::Refusal;

/// Memory in which a design was opened, or a step by the plain name was answered, and that
/// only the library has written since: nothing here lends it out to be written.
#[derive(Debug)]
pub(crate) struct Sound(Box<Memory>);

impl Sound {
    /// Opens the design at the start of a script, and gives the place behind it too.
    pub fn open(script: &[u8]) -> Result<(Sound, usize), Refusal> {
        let mut memory = Memory::boxed();
        let told = memory.open(script);
        match told.word {
            word::REFUSED => Err(refusal(&told)),
            _ => Ok((Sound(memory), told.next)),
        }
    }

    /// Tests memory that may hold anything, by a step that every desk answers and that
    /// changes none. The answer leaves the catalog, whatever stood in its place.
    pub fn tested(mut memory: Box<Memory>) -> Result<Sound, Refusal> {
        let told = memory.step(Command::even().bytes(), 0, &mut [], &mut []);
        match told.word {
            word::REFUSED => Err(refusal(&told).of_method(None)),
            _ => Ok(Sound(memory)),
        }
    }

    /// Takes a step.
    pub fn step(&mut self, script: &[u8], at: usize, words: &mut [u32], text: &mut [u8]) -> Told {
        // SAFETY: it is a desk, by `open` or `tested`, and the library's functions keep
        // it so.
        unsafe { self.0.step_trusted(script, at, words, text) }
    }

    /// What must be fetched next.
    pub fn missing(
        &self,
        fetches: &[[u32; FETCH_WORDS]],
    ) -> Result<Option<[u32; FETCH_WORDS]>, u8> {
        // SAFETY: it is a desk, as in `step`.
        unsafe { self.0.missing_trusted(fetches) }
    }

    pub fn memory(&self) -> &Memory {
        &self.0
    }

    pub fn into_memory(self) -> Box<Memory> {
        self.0
    }
}

impl Clone for Sound {
    fn clone(&self) -> Sound {
        Sound(self.0.boxed_copy())
    }
}
