//! Counts flaws, commands and outcomes.

use std::collections::BTreeMap;
use std::fmt;

use compare::tally::{kind, COMMANDS};
use reference::design::LONGEST_SCRIPT;
use reference::lent::{Flaw, Told, Word};

use crate::case::Lending;
use crate::steps::Step;

/// The names of the words of answers, by their numbers.
const WORDS: [&str; 20] = [
    "loaded",
    "held",
    "no candidate",
    "dropped",
    "ground",
    "sent",
    "lists",
    "refused",
    "even",
    "uneven",
    "total",
    "knot",
    "desk",
    "open",
    "opener",
    "no opener",
    "absent",
    "reason",
    "rows changed",
    "design",
];

/// The causes that a step and a trusted step can be refused with.
const OF_STEPS: [u8; 13] = [1, 2, 3, 4, 5, 6, 7, 8, 9, 10, 11, 12, 13];
const OF_TRUSTED_STEPS: [u8; 11] = [1, 2, 3, 4, 5, 6, 8, 9, 10, 11, 13];

/// The other outcomes.
const OTHERS: [&str; 22] = [
    "open: design",
    "open: refused 1",
    "open: refused 2",
    "open: refused 3",
    "open: refused 4 for a count",
    "open: refused 4 for the script's length",
    "open: refused 5",
    "open: refused 6",
    "open: refused 7",
    "a trusted run",
    "step after a trusted one: answered",
    "step after a trusted one: refused",
    "write: written",
    "write: written into just enough room",
    "write: refused 7 for a buffer",
    "write: refused 7 for one byte",
    "write: refused 12",
    "sizes: of a query's lists",
    "sizes: of a reason",
    "sizes: of the design alone",
    "sizes: refused 7",
    "sizes: refused 12",
];

/// How many states there were, and how often each flaw and each outcome was reached.
#[derive(Clone, Debug, Default)]
pub struct Tally {
    states: u64,
    sound: u64,
    flaws: BTreeMap<Flaw, u64>,
    commands: BTreeMap<&'static str, u64>,
    outcomes: BTreeMap<String, u64>,
}

impl Tally {
    /// Counts a state, and what is wrong with it.
    pub fn add_state(&mut self, flaw: Option<Flaw>) {
        self.states += 1;
        match flaw {
            Some(flaw) => *self.flaws.entry(flaw).or_default() += 1,
            None => self.sound += 1,
        }
    }

    /// Counts an opening.
    pub fn add_open(&mut self, script: &[u8], told: &Told) {
        let outcome = match told.cause() {
            None => "open: design".to_string(),
            Some(4) if script.len() > LONGEST_SCRIPT => {
                "open: refused 4 for the script's length".to_string()
            }
            Some(4) => "open: refused 4 for a count".to_string(),
            Some(cause) => format!("open: refused {cause}"),
        };
        self.count(outcome);
    }

    /// Counts a step, and its command if its state was lawful.
    pub fn add_step(&mut self, step: &Step, told: &Told) {
        self.count(format!("step: {}", outcome(told)));
        if !matches!(told.cause(), Some(7 | 12)) {
            let kind = step.piece().map_or("no command", |piece| kind(&piece));
            *self.commands.entry(kind).or_default() += 1;
        }
    }

    /// Counts a trusted step.
    pub fn add_trusted_step(&mut self, told: &Told) {
        self.count(format!("trusted step: {}", outcome(told)));
    }

    /// Counts a step where the arrays have the catalog.
    pub fn add_further_step(&mut self, told: &Told) {
        let outcome = told.cause().map_or("answered", |_| "refused");
        self.count(format!("step after a trusted one: {outcome}"));
    }

    /// Counts a trusted run.
    pub fn add_run(&mut self) {
        self.count("a trusted run".into());
    }

    /// Counts a written design.
    pub fn add_write(&mut self, cause: u8, flaw: Option<Flaw>, lending: Lending) {
        self.count(match (cause, flaw, lending) {
            (0, _, Lending::Enough) => "write: written into just enough room".into(),
            (0, _, _) => "write: written".into(),
            (7, Some(_), _) => "write: refused 7 for a buffer".into(),
            (7, None, Lending::OneShort) => "write: refused 7 for one byte".into(),
            (cause, ..) => format!("write: refused {cause}"),
        });
    }

    /// Counts what the sizes are of.
    pub fn add_sizes(&mut self, cause: u8, sizes: [u64; 3]) {
        self.count(match (cause, sizes) {
            (0, [_, 0, 0]) => "sizes: of the design alone".into(),
            (0, [_, 0, _]) => "sizes: of a reason".into(),
            (0, _) => "sizes: of a query's lists".into(),
            (cause, _) => format!("sizes: refused {cause}"),
        });
    }

    fn count(&mut self, outcome: String) {
        *self.outcomes.entry(outcome).or_default() += 1;
    }

    /// The flaws, commands and outcomes that were never reached.
    pub fn missing(&self) -> Vec<String> {
        let flaws = Flaw::ALL.into_iter();
        let flaws = flaws.filter(|flaw| !self.flaws.contains_key(flaw));
        let mut missing: Vec<String> = flaws.map(|flaw| flaw.name().to_string()).collect();
        let commands = COMMANDS.into_iter();
        let commands = commands.filter(|kind| !self.commands.contains_key(kind));
        missing.extend(commands.map(|kind| format!("step on: {kind}")));
        let outcomes = outcomes().into_iter();
        missing.extend(outcomes.filter(|outcome| !self.outcomes.contains_key(outcome)));
        missing
    }
}

/// What a step came to.
fn outcome(told: &Told) -> String {
    match told.cause() {
        Some(cause) => format!("refused {cause}"),
        None => WORDS
            .get(usize::from(told.word))
            .map_or("no word", |word| word)
            .to_string(),
    }
}

/// All outcomes that are to be reached.
fn outcomes() -> Vec<String> {
    let mut all: Vec<String> = OTHERS.map(String::from).into();
    for (name, causes) in [("step", &OF_STEPS[..]), ("trusted step", &OF_TRUSTED_STEPS)] {
        let words = (0..).zip(WORDS);
        let answers =
            words.filter(|(word, _)| ![Word::Refused as u8, Word::Design as u8].contains(word));
        all.extend(answers.map(|(_, word)| format!("{name}: {word}")));
        all.extend(
            causes
                .iter()
                .map(|cause| format!("{name}: refused {cause}")),
        );
    }
    all
}

impl fmt::Display for Tally {
    fn fmt(&self, out: &mut fmt::Formatter<'_>) -> fmt::Result {
        writeln!(out, "{} states, {} of them sound", self.states, self.sound)?;
        for flaw in Flaw::ALL {
            let count = self.flaws.get(&flaw).unwrap_or(&0);
            writeln!(out, "{count:>8}  {}: {}", flaw.cause() as u8, flaw.name())?;
        }
        writeln!(out, "steps on lawful states")?;
        for (kind, count) in &self.commands {
            writeln!(out, "{count:>8}  {kind}")?;
        }
        writeln!(out, "outcomes")?;
        for (outcome, count) in &self.outcomes {
            writeln!(out, "{count:>8}  {outcome}")?;
        }
        Ok(())
    }
}
