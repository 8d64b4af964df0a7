//! The second implementation with a fault, in the place of the library. Its catalog is a
//! sum over the design and the rows: a trusted step that finds another one answers wrongly.

use std::hash::{DefaultHasher, Hash, Hasher};

use lent::case::Case;
use lent::library::{Library, SecondImplementation};
use lent::memory::Memory;
use lent::run::{compare, Difference};
use lent::tally::Tally;
use reference::lent::{Lent, Told};

/// How many states a fault may take to be found.
const STATES: u64 = 4_000;

/// The functions of the boundary.
#[derive(Clone, Copy, Debug, PartialEq, Eq)]
pub enum Call {
    Open,
    Step,
    TrustedStep,
    Write,
    Sizes,
}

/// What went into a call.
pub struct Given<'a> {
    pub call: Call,
    pub script: &'a [u8],
    pub at: usize,
    pub before: &'a Memory,
}

/// Whether something is done, by what went into a call and what it tells.
pub type Test = dyn Fn(&Given, &Told) -> bool;

/// A library with a fault.
pub struct Wrong {
    /// What it overlooks: it takes each lent state for another one.
    pub overlooks: fn(&mut Lent),
    /// What it does to an answer, and to memory.
    pub answers: fn(&Given, &mut Told, &mut Memory),
    /// What it does to a cause, or 0, and to memory, where no answer is told.
    pub causes: fn(&Given, &mut u8, &mut Memory),
    /// What it does to memory in a run.
    pub runs: fn(&mut Memory),
    /// Where it makes the catalog of the rows.
    pub catalogs: Box<Test>,
}

impl Default for Wrong {
    fn default() -> Wrong {
        Wrong {
            overlooks: |_| (),
            answers: |_, _, _| (),
            causes: |_, _, _| (),
            runs: |_| (),
            catalogs: Box::new(|_, told| told.cause().is_none()),
        }
    }
}

/// Where the comparison finds the fault, if it does.
pub fn find(library: &dyn Library) -> Option<Box<Difference>> {
    let mut tally = Tally::default();
    let mut states = (0..STATES).map(|number| Case::new(1, number));
    states.find_map(|case| compare(library, &case, &mut tally).err())
}

/// The comparison finds what a library overlooks, on a state that has a flaw.
pub fn assert_overlooking_is_found(overlooks: fn(&mut Lent)) {
    let difference = find(&Wrong {
        overlooks,
        ..Wrong::default()
    });
    let difference = difference.expect("a difference");
    assert!(difference.case.flaw.is_some(), "{difference}");
}

/// The comparison finds what a library does to answers.
pub fn assert_answers_are_found(answers: fn(&Given, &mut Told, &mut Memory)) {
    let difference = find(&Wrong {
        answers,
        ..Wrong::default()
    });
    assert!(difference.is_some());
}

/// The comparison finds what a library does to causes.
pub fn assert_causes_are_found(causes: fn(&Given, &mut u8, &mut Memory)) {
    let difference = find(&Wrong {
        causes,
        ..Wrong::default()
    });
    assert!(difference.is_some());
}

impl Wrong {
    /// A call on the state that the library takes the lent one for. What the call changes
    /// there is changed in memory too.
    fn see<T>(&self, memory: &mut Memory, call: impl Fn(&mut Memory) -> T) -> T {
        let mut lent = memory.lent();
        (self.overlooks)(&mut lent);
        if lent == memory.lent() {
            return call(memory);
        }
        let mut seen = memory.clone();
        let before = Memory::new(&lent, 0);
        seen.design = before.design.clone();
        seen.held = before.held.clone();
        seen.cells = before.cells.clone();
        seen.issues = before.issues.clone();
        seen.tables = before.tables.clone();
        seen.marks = before.marks.clone();
        let told = call(&mut seen);
        let after = seen.lent();
        change(memory.design.lent_mut(), &lent.design, &after.design);
        change(memory.held.lent_mut(), &lent.held, &after.held);
        change(memory.cells.lent_mut(), &lent.cells, &after.cells);
        change(memory.issues.lent_mut(), &lent.issues, &after.issues);
        change(memory.tables.lent_mut(), &lent.tables, &after.tables);
        change(memory.marks.lent_mut(), &lent.marks, &after.marks);
        memory.words = seen.words;
        memory.text = seen.text;
        memory.out = seen.out;
        memory.written = seen.written;
        memory.sizes = seen.sizes;
        told
    }

    fn answer(&self, given: Given, memory: &mut Memory) -> Told {
        let (script, at) = (given.script, given.at);
        let is_lost = given.call == Call::TrustedStep && *key(memory) != sum(memory);
        let mut told = self.see(memory, |memory| match given.call {
            Call::Open => SecondImplementation.open(script, memory),
            _ => SecondImplementation.step(script, at, memory),
        });
        if is_lost {
            told.numbers[0] += 1;
        }
        (self.answers)(&given, &mut told, memory);
        if (self.catalogs)(&given, &told) {
            *key(memory) = sum(memory);
        }
        told
    }

    fn cause(&self, given: Given, memory: &mut Memory) -> u8 {
        let (script, at) = (given.script, given.at);
        let mut cause = self.see(memory, |memory| match given.call {
            Call::Write => SecondImplementation.write(memory),
            _ => SecondImplementation.sizes(script, at, memory),
        });
        (self.causes)(&given, &mut cause, memory);
        cause
    }
}

/// Where the catalog stands.
fn key(memory: &mut Memory) -> &mut u64 {
    &mut memory.catalog.keys.lent_mut()[0]
}

/// The catalog of the design and the rows.
fn sum(memory: &Memory) -> u64 {
    let mut sum = DefaultHasher::new();
    memory.design.lent().hash(&mut sum);
    memory.cells.lent().hash(&mut sum);
    memory.issues.lent().hash(&mut sum);
    memory.tables.lent().hash(&mut sum);
    sum.finish()
}

/// Changes a buffer where the seen one was changed.
fn change<T: Copy + PartialEq>(buffer: &mut [T], before: &[T], after: &[T]) {
    for (item, (before, after)) in buffer.iter_mut().zip(before.iter().zip(after)) {
        if before != after {
            *item = *after;
        }
    }
}

impl Library for Wrong {
    fn name(&self) -> &str {
        "a wrong library"
    }

    fn open(&self, script: &[u8], memory: &mut Memory) -> Told {
        let before = memory.clone();
        self.answer(given(Call::Open, script, 0, &before), memory)
    }

    fn step(&self, script: &[u8], at: usize, memory: &mut Memory) -> Told {
        let before = memory.clone();
        self.answer(given(Call::Step, script, at, &before), memory)
    }

    fn step_trusted(&self, script: &[u8], at: usize, memory: &mut Memory) -> Told {
        let before = memory.clone();
        self.answer(given(Call::TrustedStep, script, at, &before), memory)
    }

    fn run_trusted(&self, script: &[u8], at: usize, memory: &mut Memory) {
        SecondImplementation.run_trusted(script, at, memory);
        (self.runs)(memory);
    }

    fn write(&self, memory: &mut Memory) -> u8 {
        let before = memory.clone();
        self.cause(given(Call::Write, &[], 0, &before), memory)
    }

    fn sizes(&self, script: &[u8], at: usize, memory: &mut Memory) -> u8 {
        let before = memory.clone();
        self.cause(given(Call::Sizes, script, at, &before), memory)
    }
}

fn given<'a>(call: Call, script: &'a [u8], at: usize, before: &'a Memory) -> Given<'a> {
    Given {
        call,
        script,
        at,
        before,
    }
}
