//! The reason for a row in words (document 02, Req 08): a shortest chain of demands
//! from a held value or range to the row.

use std::fmt;

use crate::desk::{Answer, Desk};
use crate::refusal::Cause;
use crate::script::{Pair, Range, Value};

impl Desk {
    pub(crate) fn reason(&self, row: usize) -> Result<Answer, Cause> {
        Cause::WrongOperand.unless(self.design.has_row(row))?;
        if !self.cached[row] {
            return Ok(Answer::Absent);
        }
        let sentence = self.sentence(&self.distances(), row);
        Cause::AnswerTooLong.unless(sentence.len() <= self.text_bytes)?;
        Ok(Answer::Reason(sentence))
    }

    /// How many demands lead to each row from one that has a held value, if any do.
    pub fn distances(&self) -> Vec<Option<usize>> {
        let rows = 0..self.design.rows.len();
        let mut distances = vec![None; rows.len()];
        let mut last: Vec<usize> = rows.clone().filter(|&row| self.is_held_row(row)).collect();
        for distance in 0.. {
            for &row in &last {
                distances[row] = Some(distance);
            }
            let is_next = |&row: &usize| {
                distances[row].is_none()
                    && last.iter().any(|&from| self.demand(from, row).is_some())
            };
            last = rows.clone().filter(is_next).collect();
            if last.is_empty() {
                break;
            }
        }
        distances
    }

    fn is_held_row(&self, row: usize) -> bool {
        self.design
            .pairs_of(row)
            .any(|pair| self.held().holds(pair))
    }

    /// What is held of a row: values and ranges of any desk.
    pub fn held_of(&self, row: usize) -> Vec<Held> {
        let held = self.held();
        let mut found = Vec::new();
        for pair in self.design.pairs_of(row) {
            let values = held.values.iter().filter(|owned| owned.pair == pair);
            found.extend(values.map(|owned| Held::value(owned.pair)));
            let ranges = held.ranges.iter().flatten();
            found.extend(ranges.filter(|range| range.has(pair)).map(Held::range));
        }
        found
    }

    /// The lowest constraint that demands one row of another.
    fn demand(&self, source: usize, target: usize) -> Option<usize> {
        let mut constraints = self.design.constraints.iter();
        constraints.position(|&constraint| self.design.demands(constraint, source, target))
    }

    /// The sentence on a cached row.
    fn sentence(&self, distances: &[Option<usize>], row: usize) -> String {
        match distances[row].unwrap_or(0).checked_sub(1) {
            None => {
                let held = self.held_of(row).into_iter().min();
                let held = held.expect("a cached row at no distance has something held");
                format!("row {row} by {held}")
            }
            Some(before) => {
                let sources = (0..distances.len()).filter(|&s| distances[s] == Some(before));
                let links = sources.filter_map(|s| Some((self.demand(s, row)?, s)));
                let (constraint, source) = links.min().expect("a row before it demands it");
                let rest = self.sentence(distances, source);
                format!("row {row} by constraint {constraint} from {rest}")
            }
        }
    }
}

/// Something held, in the order in which reasons take it: by filling, and in one
/// filling values before ranges.
#[derive(Clone, Copy, Debug, PartialEq, Eq, PartialOrd, Ord)]
pub struct Held {
    filling: usize,
    kind: Kind,
}

#[derive(Clone, Copy, Debug, PartialEq, Eq, PartialOrd, Ord)]
enum Kind {
    Value(Value),
    Range { low: u32, high: u32 },
}

impl Held {
    /// A held value.
    pub fn value(pair: Pair) -> Held {
        Held {
            filling: pair.filling,
            kind: Kind::Value(pair.value),
        }
    }

    /// A held range.
    pub fn range(range: &Range) -> Held {
        let Range { filling, low, high } = *range;
        Held {
            filling,
            kind: Kind::Range { low, high },
        }
    }
}

impl fmt::Display for Held {
    fn fmt(&self, out: &mut fmt::Formatter<'_>) -> fmt::Result {
        match self.kind {
            Kind::Value(Value { number, issue: 0 }) => write!(out, "value {number}")?,
            Kind::Value(Value { number, issue }) => write!(out, "value {number} issue {issue}")?,
            Kind::Range { low, high } => write!(out, "range {low} to {high}")?,
        }
        write!(out, " of filling {}", self.filling)
    }
}
