//! What a session answers, in the numbers of the design and of the desk's rows: [`crate::Session::row`] has their keys and labels.

use crate::issued::Issued;

/// What is loaded or dropped.
#[derive(Clone, Debug, PartialEq, Eq)]
pub enum Wanted {
    /// A value of the load's column.
    Value(Issued),
    /// All numbers from `low` to `high` of an `integer` column, at issue 0.
    Range {
        /// The lowest number.
        low: u32,
        /// The highest number.
        high: u32,
    },
}

/// As users write it.
impl std::fmt::Display for Wanted {
    fn fmt(&self, out: &mut std::fmt::Formatter<'_>) -> std::fmt::Result {
        match self {
            Wanted::Value(value) => write!(out, "{value}"),
            Wanted::Range { low, high } => write!(out, "{low}..{high}"),
        }
    }
}

/// What a question is answered.
#[derive(Clone, Debug, PartialEq, Eq)]
pub enum Answered {
    /// All lists of rows that fit, in the desk's order.
    Lists(Lists),
    /// What a measure adds up to.
    Total(u64),
    /// The desk can't say: the database has to be asked.
    Sent,
}

/// Lists of rows, each with a row for each of the question's positions, by the desk's numbers.
#[derive(Clone, Debug, PartialEq, Eq)]
pub struct Lists {
    /// The tables of the positions.
    pub tables: Vec<usize>,
    /// The lists.
    pub lists: wurzsige::Lists,
}

/// Something held.
#[derive(Clone, Debug, PartialEq, Eq)]
pub struct Held {
    /// By which desk, from 0 to 3.
    pub desk: u8,
    /// The load's number.
    pub load: usize,
    /// What of it.
    pub wanted: Wanted,
}

/// How many rows something held needs.
#[derive(Clone, Copy, Debug, PartialEq, Eq)]
pub struct Needs {
    /// All rows that it would bring in by itself.
    pub rows: usize,
    /// Those of them that nothing else needs.
    pub alone: usize,
}

/// Why a row is here.
#[derive(Clone, Debug, PartialEq, Eq)]
pub struct Reason {
    /// The row.
    pub row: u16,
    /// The links from the row back: the first brought the row itself.
    pub steps: Vec<Step>,
    /// What is held, at which the chain ends. The last step's row, or the row itself, has it.
    pub load: usize,
    /// What of the load.
    pub wanted: Wanted,
}

/// A link that brought a row.
#[derive(Clone, Copy, Debug, PartialEq, Eq)]
pub struct Step {
    /// The link's number.
    pub link: usize,
    /// The row that it starts at.
    pub from: u16,
}

/// What would let the desk answer.
#[derive(Clone, Debug, PartialEq, Eq)]
pub enum Opener {
    /// Nothing needs to: it does.
    Open,
    /// A load of this value.
    Load {
        /// The load's number.
        load: usize,
        /// The value.
        value: Issued,
    },
    /// None is known. A slice can't say that there is none.
    NoneKnown,
}
