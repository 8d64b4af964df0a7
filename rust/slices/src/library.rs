//! What is compared: the functions of the C boundary that a feeder calls.

use reference::lent::{self, Lent, Told, FETCH_WORDS, VERDICT_WORDS};

/// The words of a fetch.
pub type FetchWords = [u32; FETCH_WORDS];

/// The words of all verdicts.
pub type VerdictWords = [u32; VERDICT_WORDS];

/// The functions that a feeder calls.
pub trait Library {
    /// The name that its answers are printed with.
    fn name(&self) -> &str;

    /// Takes a step on a lent state.
    fn step(&self, command: &[u8], lent: &mut Lent, words: &mut [u32]) -> Told;

    /// What must be fetched next: 0 for nothing, 1 and the fetch, or a cause.
    fn missing(&self, lent: &Lent, fetches: &[u32], count: usize, fetch: &mut FetchWords) -> u8;

    /// The same without a look at the state, which is sound.
    fn missing_trusted(
        &self,
        lent: &Lent,
        fetches: &[u32],
        count: usize,
        fetch: &mut FetchWords,
    ) -> u8;

    /// What a lent design decides of its columns: 0 and the verdicts, or a cause.
    fn verdicts(&self, design: &[u32], verdicts: &mut VerdictWords) -> u8;
}

/// The library under comparison.
#[cfg(feature = "proved")]
pub const UNDER_COMPARISON: &dyn Library = &crate::boundary::Proved;

/// The library under comparison: the second implementation stands in for the proved one.
#[cfg(not(feature = "proved"))]
pub const UNDER_COMPARISON: &dyn Library = &SecondImplementation;

/// The second implementation.
pub struct SecondImplementation;

impl Library for SecondImplementation {
    fn name(&self) -> &str {
        "the second implementation"
    }

    fn step(&self, command: &[u8], lent: &mut Lent, words: &mut [u32]) -> Told {
        lent::step(command, 0, lent, words, &mut [])
    }

    fn missing(&self, lent: &Lent, fetches: &[u32], count: usize, fetch: &mut FetchWords) -> u8 {
        match lent::missing(lent, fetches, count) {
            Ok(None) => 0,
            Ok(Some(missing)) => {
                *fetch = missing;
                1
            }
            Err(cause) => cause as u8,
        }
    }

    fn missing_trusted(
        &self,
        lent: &Lent,
        fetches: &[u32],
        count: usize,
        fetch: &mut FetchWords,
    ) -> u8 {
        self.missing(lent, fetches, count, fetch)
    }

    fn verdicts(&self, design: &[u32], verdicts: &mut VerdictWords) -> u8 {
        match lent::verdicts(design) {
            Ok(told) => {
                *verdicts = told;
                0
            }
            Err(cause) => cause as u8,
        }
    }
}
