//! What is compared: the functions of the C boundary, whoever carries them out.

use reference::lent::{self, Lent, Sizes, Told};
use reference::refusal::Cause;

use crate::memory::Memory;

/// The functions of the boundary. Each leaves in memory what it leaves there.
pub trait Library {
    /// The name that its answers are printed with.
    fn name(&self) -> &str;

    /// Opens the design at the head of a script.
    fn open(&self, script: &[u8], memory: &mut Memory) -> Told;

    /// Takes the step at a place of a script.
    fn step(&self, script: &[u8], at: usize, memory: &mut Memory) -> Told;

    /// The same without a look at the state, which some call has left.
    fn step_trusted(&self, script: &[u8], at: usize, memory: &mut Memory) -> Told;

    /// Takes all trusted steps from a place of a script on.
    fn run_trusted(&self, script: &[u8], at: usize, memory: &mut Memory);

    /// Writes the design, and gives 0 or a cause.
    fn write(&self, memory: &mut Memory) -> u8;

    /// Tells how much is to be lent, and gives 0 or a cause.
    fn sizes(&self, script: &[u8], at: usize, memory: &mut Memory) -> u8;
}

/// The library under comparison.
#[cfg(feature = "proved")]
pub const UNDER_COMPARISON: &dyn Library = &crate::boundary::Proved;

/// The library under comparison: the second implementation stands in for the proved one.
#[cfg(not(feature = "proved"))]
pub const UNDER_COMPARISON: &dyn Library = &SecondImplementation;

/// The second implementation. It has no catalog, and looks at the state of trusted steps
/// too.
pub struct SecondImplementation;

impl Library for SecondImplementation {
    fn name(&self) -> &str {
        "the second implementation"
    }

    fn open(&self, script: &[u8], memory: &mut Memory) -> Told {
        with_lent(memory, |lent, _| lent::open(script, lent))
    }

    fn step(&self, script: &[u8], at: usize, memory: &mut Memory) -> Told {
        with_lent(memory, |lent, memory| {
            let (words, text) = (memory.words.lent_mut(), memory.text.lent_mut());
            lent::step(script, at, lent, words, text)
        })
    }

    fn step_trusted(&self, script: &[u8], at: usize, memory: &mut Memory) -> Told {
        self.step(script, at, memory)
    }

    fn run_trusted(&self, script: &[u8], at: usize, memory: &mut Memory) {
        with_lent(memory, |lent, memory| {
            let (words, text) = (memory.words.lent_mut(), memory.text.lent_mut());
            lent::run(script, at, lent, words, text);
        });
    }

    fn write(&self, memory: &mut Memory) -> u8 {
        let written = lent::write(&memory.lent(), memory.out.lent_mut());
        told(written, |written| memory.written = written)
    }

    fn sizes(&self, script: &[u8], at: usize, memory: &mut Memory) -> u8 {
        let sizes = lent::sizes(script, at, &memory.lent());
        told(sizes, |Sizes { bytes, words, text }| {
            memory.sizes = [bytes, words, text];
        })
    }
}

/// Carries out a call on the state of a memory.
fn with_lent<T>(memory: &mut Memory, call: impl Fn(&mut Lent, &mut Memory) -> T) -> T {
    let mut lent = memory.lent();
    let told = call(&mut lent, memory);
    memory.store(&lent);
    told
}

/// The cause of a refusal; or 0, and what is told is taken.
fn told<T>(result: Result<T, Cause>, take: impl FnOnce(T)) -> u8 {
    match result {
        Ok(told) => {
            take(told);
            0
        }
        Err(cause) => cause as u8,
    }
}
