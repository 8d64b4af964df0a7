//! What the sessions have reached. A kind that was never reached was never compared.

use std::collections::BTreeMap;
use std::fmt;

/// All that has to be reached.
const ALL: [&str; 34] = [
    "loaded",
    "loaded without a row",
    "loaded over 100 rows",
    "loaded in over 2 rounds",
    "held",
    "no candidate",
    "too large",
    "too large beside others",
    "no place free",
    "range loaded",
    "range dropped",
    "dropped",
    "not held",
    "complete by ground 1",
    "complete by ground 2",
    "complete by ground 3",
    "complete without a row",
    "sent",
    "lists",
    "no list",
    "lists of joins",
    "lists over 50",
    "total",
    "total of joins",
    "question sent",
    "question that loads",
    "question too large",
    "reason",
    "reason of over 1 step",
    "opener",
    "refreshed with changes",
    "refreshed without changes",
    "asked of an old snapshot",
    "numbers given back",
];

/// How often each kind was reached.
#[derive(Default)]
pub struct Tally(BTreeMap<&'static str, usize>);

impl Tally {
    /// Counts a kind, if it was reached.
    pub fn count(&mut self, kind: &'static str, reached: bool) {
        assert!(ALL.contains(&kind) || RARE.contains(&kind), "{kind}");
        *self.0.entry(kind).or_default() += usize::from(reached);
    }

    /// The kinds that were never reached.
    pub fn never(&self) -> Vec<&'static str> {
        let reached = |kind: &&&'static str| self.0.get(**kind).is_none_or(|count| *count == 0);
        ALL.iter().filter(reached).copied().collect()
    }
}

/// What a few sessions need not reach.
const RARE: [&str; 4] = [
    "refresh too large",
    "lists too long",
    "none known",
    "opener too large",
];

impl fmt::Display for Tally {
    fn fmt(&self, out: &mut fmt::Formatter<'_>) -> fmt::Result {
        self.0
            .iter()
            .try_for_each(|(kind, count)| writeln!(out, "{kind}: {count}"))
    }
}
