//! What was reached.

use std::collections::BTreeMap;
use std::fmt;

use reference::desk::Desk;
use reference::lent::Told;

use crate::feeder::Feeder;
use crate::library::{FetchWords, VerdictWords};

/// Outcomes of the functions that have to be reached.
const OF_FUNCTIONS: [&str; 13] = [
    "missing: nothing",
    "missing: a value",
    "missing: a span",
    "missing: refused 5",
    "missing: refused 7",
    "missing: refused 12",
    "verdicts: refused 7",
    "verdicts: refused 12",
    "verdicts: fetches",
    "verdicts: once linked",
    "verdicts: once unique",
    "verdicts: never",
    "verdicts: seeing is enough",
];

/// Outcomes of sessions that have to be reached.
const OF_SESSIONS: [&str; 15] = [
    "session: loaded",
    "session: held",
    "session: dropped",
    "session: ground",
    "session: sent",
    "session: lists",
    "session: refused",
    "session: total",
    "session: desk",
    "session: rows came",
    "session: rows went",
    "session: a row that needn't be known",
    "session: over 100 rows cached",
    "session: over 100 rows of a database cached in a slice of less than a quarter",
    "session: more rows than a desk can have",
];

/// How often each outcome was reached.
#[derive(Clone, Debug, Default)]
pub struct Tally {
    counts: BTreeMap<&'static str, usize>,
}

impl Tally {
    fn count(&mut self, outcome: &'static str, reached: bool) {
        *self.counts.entry(outcome).or_default() += usize::from(reached);
    }

    /// What `missing` told.
    pub fn missing(&mut self, told: u8, fetch: &FetchWords) {
        let outcome = match (told, fetch[0]) {
            (0, _) => "missing: nothing",
            (1, 0) => "missing: a value",
            (1, _) => "missing: a span",
            (5, _) => "missing: refused 5",
            (7, _) => "missing: refused 7",
            _ => "missing: refused 12",
        };
        self.count(outcome, true);
    }

    /// What the verdicts told.
    pub fn verdicts(&mut self, told: u8, verdicts: &VerdictWords) {
        self.count("verdicts: refused 7", told == 7);
        self.count("verdicts: refused 12", told == 12);
        let names = [
            "verdicts: fetches",
            "verdicts: once linked",
            "verdicts: once unique",
            "verdicts: never",
            "verdicts: seeing is enough",
        ];
        for (bit, name) in names.into_iter().enumerate() {
            let some = verdicts.iter().any(|word| word >> bit & 1 == 1);
            self.count(name, told == 0 && some);
        }
    }

    /// What a session's operation was answered.
    pub fn answered(&mut self, told: &Told, feeder: &Feeder, full: &Desk) {
        let numbers = &told.numbers;
        match told.word {
            0 => self.count("session: loaded", numbers[0] > 0),
            1 => self.count("session: held", true),
            3 => self.count("session: dropped", numbers[0] > 0),
            4 => self.count("session: ground", numbers[1] > 0),
            5 => self.count("session: sent", true),
            6 => self.count("session: lists", numbers[0] > 0),
            7 => self.count("session: refused", true),
            10 => self.count("session: total", numbers[0] > 0),
            12 => self.count("session: desk", true),
            18 => {
                self.count("session: rows came", numbers[0] > 0);
                self.count("session: rows went", numbers[1] > 0);
                self.count(
                    "session: a row that needn't be known",
                    numbers[..2] == [0, 0],
                );
            }
            _ => {}
        }
        let cached = full.cached().iter().filter(|&&cached| cached).count();
        let slice = feeder.at.iter().flatten().count();
        self.count("session: over 100 rows cached", cached > 100);
        self.count(
            "session: over 100 rows of a database cached in a slice of less than a quarter",
            cached > 100 && 4 * slice < full.design().rows.len(),
        );
    }

    /// An operation needed more rows than a desk can have.
    pub fn too_many_rows(&mut self) {
        self.count("session: more rows than a desk can have", true);
    }

    /// The outcomes that were never reached.
    pub fn never_reached(&self) -> Vec<&'static str> {
        let all = OF_FUNCTIONS.iter().chain(&OF_SESSIONS);
        let never = all.filter(|name| self.counts.get(*name).is_none_or(|&count| count == 0));
        never.copied().collect()
    }
}

impl fmt::Display for Tally {
    fn fmt(&self, out: &mut fmt::Formatter<'_>) -> fmt::Result {
        for (name, count) in &self.counts {
            writeln!(out, "{name}: {count}")?;
        }
        Ok(())
    }
}
