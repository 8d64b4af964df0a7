//! The work to be timed: designs, and operations on them that are carried out
//! over and over, up to the longest script.
//!
//! - [`growing`] has works that can be made for a number of rows.
//! - [`clinic`] has everyday works on one design.
//! - [`hostile`] has works that are meant to be slow.
//! - [`laboratory`] has a long script of all operations.
//! - [`unreached`] has works beside rows that they don't reach.
//! - [`opening`] has large designs, to be opened and no more.

pub mod clinic;
pub mod growing;
pub mod hostile;
pub mod laboratory;
pub mod opening;
pub mod unreached;

use notation::{
    encode, Column, Command, Constraint, Design, Filling, Join, Pair, Probe, Query, Table, Total,
};

/// The longest script, in bytes.
pub const LONGEST_SCRIPT: usize = 65_536;

/// The most rows of a design.
pub const MOST_ROWS: usize = 512;

/// A design and operations on it.
#[derive(Clone, Debug)]
pub struct Work {
    /// What it is, in a few words.
    pub name: &'static str,
    /// The design.
    pub design: Design,
    /// Operations before the clock starts.
    pub before: Vec<Command>,
    /// Operations on the clock.
    pub timed: Vec<Command>,
}

impl Work {
    /// A work whose operations on the clock are the given ones over and over, as
    /// many as fit into the longest script.
    pub fn repeating(
        name: &'static str,
        design: Design,
        before: Vec<Command>,
        operations: &[Command],
    ) -> Work {
        let bytes = |commands: &[Command]| encode(commands).len();
        let room = LONGEST_SCRIPT - bytes(&design.commands()) - bytes(&before);
        let times = room / bytes(operations);
        Work {
            name,
            design,
            before,
            timed: operations.repeat(times),
        }
    }

    /// The whole work as a script.
    pub fn script(&self) -> Vec<u8> {
        let design = self.design.commands();
        encode(&[&design[..], &self.before, &self.timed].concat())
    }
}

/// All works at their largest.
pub fn all() -> Vec<Work> {
    let mut works = vec![laboratory::full_script()];
    works.extend(clinic::works());
    works.extend(growing::works(MOST_ROWS));
    works.extend(hostile::works());
    works
}

/// Works that SQL has no statement for, at their largest: questions, and rows that come and
/// go where that is dearest.
pub fn questions() -> Vec<Work> {
    let mut works = growing::questions(MOST_ROWS);
    works.extend(hostile::questions());
    works
}

pub(crate) fn table(columns: u8, unique: u8) -> Table {
    Table { columns, unique }
}

pub(crate) fn column(table: u8, column: u8) -> Column {
    Column { table, column }
}

pub(crate) fn constraint(source: Column, target: Column) -> Constraint {
    Constraint { source, target }
}

/// A filling for which every value is a candidate.
pub(crate) fn filling(column: Column) -> Filling {
    Filling {
        column,
        low: 1,
        high: u32::MAX,
    }
}

pub(crate) fn refer(filling: u8, value: u32) -> Command {
    let value = value.into();
    Command::Refer(Pair { filling, value })
}

pub(crate) fn drop(filling: u8, value: u32) -> Command {
    let value = value.into();
    Command::Drop(Pair { filling, value })
}

/// A load and a drop of each of the values.
fn load_and_drop(filling: u8, values: impl IntoIterator<Item = u32>) -> Vec<Command> {
    let values = values.into_iter();
    values
        .flat_map(|value| [refer(filling, value), drop(filling, value)])
        .collect()
}

pub(crate) fn probe(column: Column, value: u32) -> Command {
    let value = value.into();
    Command::Probe(Probe { column, value })
}

pub(crate) fn opener(column: Column, value: u32) -> Command {
    let value = value.into();
    Command::Opener(Probe { column, value })
}

pub(crate) fn query(column: Column, value: u32, joins: &[Join]) -> Command {
    Command::Query(Query::new(column, value, joins))
}

/// The total of the cell at a position and a column over a query's lists.
fn total(query: Query, position: u8, column: u8) -> Command {
    Command::Total(Total {
        query,
        position,
        column,
    })
}

pub(crate) fn join(position: u8, constraint: u8) -> Join {
    Join {
        position,
        constraint,
    }
}
