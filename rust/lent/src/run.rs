//! The comparison itself: both are called on the same memory, and everything that they
//! tell and leave has to be the same.

use std::fmt::{self, Debug};

use notation::disassemble;
use reference::lent::Told;

use crate::case::Case;
use crate::library::{Library, SecondImplementation};
use crate::memory::Memory;
use crate::steps::Step;
use crate::tally::Tally;

/// The most bytes of a script that are printed in the notation.
const PRINTED: usize = 4_096;

/// The most bytes of a script that is run as a whole.
const RUN: usize = 2_000;

/// Where the two differ.
#[derive(Debug)]
pub struct Difference {
    /// The call.
    pub call: &'static str,
    /// The case.
    pub case: Case,
    /// What was given to the call.
    pub given: String,
    /// What both told, by their names.
    pub told: [(String, String); 2],
    /// The first thing in memory that isn't as the second implementation left it.
    pub memory: Option<String>,
}

/// What a comparison comes to.
pub type Compared<T> = Result<T, Box<Difference>>;

/// Compares a library with the second implementation on a case.
pub fn compare(library: &dyn Library, case: &Case, tally: &mut Tally) -> Compared<()> {
    tally.add_state(case.flaw);
    let comparing = Comparing { library, case };
    let sizes = comparing.sizes(tally)?;
    comparing.step(sizes, tally)?;
    comparing.write(sizes, tally)?;
    comparing.open(tally)
}

/// A library on a case.
struct Comparing<'a> {
    library: &'a dyn Library,
    case: &'a Case,
}

/// What both told and left: the same.
struct Same<T> {
    told: T,
    memory: Memory,
}

impl Comparing<'_> {
    /// The sizes that were told, or some if the state was refused.
    fn sizes(&self, tally: &mut Tally) -> Compared<[u64; 3]> {
        let Step { script, at } = &self.case.step;
        let before = self.case.memory.clone();
        let call = |library: &dyn Library, memory: &mut Memory| library.sizes(script, *at, memory);
        let same = self.call("sizes", &shown(script, *at), before, call, |_| false)?;
        let sizes = same.memory.sizes;
        tally.add_sizes(same.told, sizes);
        Ok(if same.told == 0 { sizes } else { [3; 3] })
    }

    /// A step where the catalog's arrays mean nothing. If it is refused, with whatever
    /// cause, they are as they were; if it is answered, they have the catalog.
    fn step(&self, sizes: [u64; 3], tally: &mut Tally) -> Compared<()> {
        let case = self.case;
        let Step { script, at } = &case.step;
        let [_, words, text] = sizes.map(|size| size.min(5_000) as usize);
        let [words, text] = [case.lending[0].length(words), case.lending[1].length(text)];
        let before = case.memory.clone().answering(case.byte, words, text);
        let call = |library: &dyn Library, memory: &mut Memory| library.step(script, *at, memory);
        let given = format!(
            "{}, {words} words, {text} bytes of text",
            shown(script, *at)
        );
        let same = self.call("step", &given, before, call, is_answered)?;
        tally.add_step(&case.step, &same.told);
        if !is_answered(&same.told) {
            return Ok(());
        }
        self.further_steps(same.memory, tally)
    }

    /// Steps where the arrays have the catalog: a trusted one, a plain one, and a trusted
    /// one again, for which a refusal has left the catalog too.
    fn further_steps(&self, memory: Memory, tally: &mut Tally) -> Compared<()> {
        let [first, second, third] = &self.case.further;
        let memory = self.trusted_step("a trusted step after it", first, memory, tally)?;
        let Step { script, at } = second;
        let before = memory.answering(self.case.byte, 64, 200);
        let call = |library: &dyn Library, memory: &mut Memory| library.step(script, *at, memory);
        let name = "a step after a trusted one";
        let same = self.call(name, &shown(script, *at), before, call, is_answered)?;
        tally.add_further_step(&same.told);
        let name = if is_answered(&same.told) {
            "a trusted step after an answered one"
        } else {
            "a trusted step after a refused one"
        };
        self.trusted_step(name, third, same.memory, tally)?;
        Ok(())
    }

    /// A trusted step, and the memory that it leaves.
    fn trusted_step(
        &self,
        name: &'static str,
        step: &Step,
        memory: Memory,
        tally: &mut Tally,
    ) -> Compared<Memory> {
        let Step { script, at } = step;
        let before = memory.answering(self.case.byte, 64, 200);
        let call =
            |library: &dyn Library, memory: &mut Memory| library.step_trusted(script, *at, memory);
        let same = self.call(name, &shown(script, *at), before, call, |_| true)?;
        tally.add_trusted_step(&same.told);
        Ok(same.memory)
    }

    fn write(&self, sizes: [u64; 3], tally: &mut Tally) -> Compared<()> {
        let case = self.case;
        let lending = case.lending[2];
        let room = lending.length(sizes[0] as usize);
        let before = case.memory.clone().with_room(case.byte, room);
        let call = |library: &dyn Library, memory: &mut Memory| library.write(memory);
        let same = self.call("write", &format!("room {room}"), before, call, |_| false)?;
        tally.add_write(same.told, case.flaw, lending);
        Ok(())
    }

    /// An opening, and then a trusted step behind the design, or a run of all of them.
    fn open(&self, tally: &mut Tally) -> Compared<()> {
        let script = &self.case.opening;
        let before = self.case.memory.clone().answering(self.case.byte, 5, 5);
        let call = |library: &dyn Library, memory: &mut Memory| library.open(script, memory);
        let same = self.call("open", &shown(script, 0), before, call, is_answered)?;
        tally.add_open(script, &same.told);
        if !is_answered(&same.told) {
            return Ok(());
        }
        let step = Step {
            script: script.clone(),
            at: same.told.next,
        };
        if self.case.runs && script.len() <= RUN {
            return self.run(&step, same.memory, tally);
        }
        self.trusted_step("a trusted step after opening", &step, same.memory, tally)?;
        Ok(())
    }

    fn run(&self, step: &Step, memory: Memory, tally: &mut Tally) -> Compared<()> {
        let Step { script, at } = step;
        let before = memory.answering(self.case.byte, 64, 200);
        let call =
            |library: &dyn Library, memory: &mut Memory| library.run_trusted(script, *at, memory);
        let name = "a trusted run after opening";
        self.call(name, &shown(script, *at), before, call, |()| true)?;
        tally.add_run();
        Ok(())
    }

    /// Calls both on the same memory. If the call may write the catalog, what stands there
    /// afterwards is the library's.
    fn call<T: PartialEq + Debug>(
        &self,
        name: &'static str,
        given: &str,
        before: Memory,
        call: impl Fn(&dyn Library, &mut Memory) -> T,
        may_write_catalog: impl Fn(&T) -> bool,
    ) -> Compared<Same<T>> {
        let mut memory = before.clone();
        let mut expected = before;
        let told = call(self.library, &mut memory);
        let expected_told = call(&SecondImplementation, &mut expected);
        if may_write_catalog(&expected_told) {
            expected.catalog = memory.catalog.clone();
        }
        let difference = memory.difference(&expected);
        if told == expected_told && difference.is_none() {
            return Ok(Same { told, memory });
        }
        let told = [
            (self.library.name().to_string(), format!("{told:?}")),
            (
                SecondImplementation.name().to_string(),
                format!("{expected_told:?}"),
            ),
        ];
        Err(Box::new(Difference {
            call: name,
            case: self.case.clone(),
            given: given.to_string(),
            told,
            memory: difference,
        }))
    }
}

/// Whether a step or an opening wasn't refused.
fn is_answered(told: &Told) -> bool {
    told.cause().is_none()
}

/// A script in the notation, as far as it is short, and a place.
fn shown(script: &[u8], at: usize) -> String {
    let printed = disassemble(&script[..script.len().min(PRINTED)]);
    format!("{printed}place {at} of {} bytes", script.len())
}

impl fmt::Display for Difference {
    fn fmt(&self, out: &mut fmt::Formatter<'_>) -> fmt::Result {
        write!(out, "{}", self.case)?;
        writeln!(out, "{}:", self.call)?;
        writeln!(out, "{}", self.given)?;
        for (name, told) in &self.told {
            writeln!(out, "{name}: {told}")?;
        }
        let memory = self.memory.as_deref().unwrap_or("no difference");
        writeln!(out, "memory: {memory}")
    }
}
