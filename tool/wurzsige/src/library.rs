//! What the tool asks of the proved library, and nothing else: whether a design is accepted, its smallest knot, the bound on rounds, and the verdicts on its columns.
//! Here no rule is decided; bytes go in and answers come out.

use std::fmt;

use wurzsige::{Answer, Desk, Evenness};

/// The operation that asks for the smallest knot (02, Req 11).
const KNOT: u8 = 0x1c;

/// Why the desk doesn't take a design, in the library's words.
#[derive(Clone, Debug, PartialEq, Eq)]
pub struct Refused(String);

impl fmt::Display for Refused {
    fn fmt(&self, out: &mut fmt::Formatter<'_>) -> fmt::Result {
        write!(out, "the desk says of the design: {}", self.0)
    }
}

/// A design that the desk has accepted.
pub struct Library(Desk);

impl Library {
    /// Gives a design's script to the desk.
    pub fn open(script: &[u8]) -> Result<Library, Refused> {
        match Desk::open(script) {
            Ok(desk) => Ok(Library(desk)),
            Err(refusal) => Err(Refused(refusal.to_string())),
        }
    }

    /// The fewest links that feed themselves without the others, rising; none in an even design.
    pub fn knot(&mut self) -> Vec<usize> {
        match self.0.step(&[KNOT], 0).answer {
            Answer::Knot(links) => links.into_iter().map(usize::from).collect(),
            Answer::Even => Vec::new(),
            other => unreachable!("a report without operands answers {other}"),
        }
    }

    /// The design as the desk writes it back.
    pub fn write(&self) -> Vec<u8> {
        self.0.write()
    }

    /// The verdicts on the design's columns.
    pub fn verdicts(&self) -> Verdicts {
        Verdicts(self.0.verdicts())
    }
}

/// After how many later rounds every load is over in an even design of so many tables.
pub fn most_rounds(tables: usize) -> usize {
    Evenness::most_rounds(tables)
}

/// What a design decides of a column before any row is there.
#[derive(Clone, Copy, Debug, PartialEq, Eq)]
pub struct Verdict(wurzsige::Verdict);

impl Verdict {
    /// A load can be asked for the column's values.
    pub fn fetches(self) -> bool {
        self.0.fetches
    }

    /// A value is complete once a row that is here has it at the source of this link, the lowest of those that can.
    pub fn once_linked(self) -> Option<usize> {
        self.0.once_linked.map(usize::from)
    }

    /// A value is complete once a row that is here has it in the column, which is unique.
    pub fn once_unique(self) -> bool {
        self.0.once_unique
    }

    /// Every value of the column is sent, always.
    pub fn never(self) -> bool {
        self.0.never()
    }

    /// A value that is seen in the column is complete (02, Req 13).
    pub fn seen_is_all(self) -> bool {
        self.0.seeing_is_enough
    }
}

/// The verdicts on the design's columns.
#[derive(Clone, Debug, PartialEq, Eq)]
pub struct Verdicts(Vec<wurzsige::Verdict>);

impl Verdicts {
    /// The verdict on a column of the design, by the numbers of the script.
    pub fn of(&self, table: usize, column: usize) -> Verdict {
        let is_here = |of: &&wurzsige::Verdict| {
            (usize::from(of.column.table), usize::from(of.column.column)) == (table, column)
        };
        Verdict(*self.0.iter().find(is_here).expect("a column of the design"))
    }
}
