//! The database behind a design: one read-only snapshot of SQLite or of PostgreSQL, from which rows are fetched whole.
//!
//! A [`Source`] reads catalogs and rows and decides nothing. [`open()`] holds a design to the catalog, and refuses by name whatever could make a proved yes
//! wrong: names that aren't there, collations that aren't binary, types that pad or don't fit, a unique column that has a value twice.

mod bind;
mod catalog;
mod counts;
mod database;
mod draft;
mod forms;
mod kind;
mod label;
mod libpq;
mod place;
mod postgres;
mod postgres_catalog;
mod rows;
mod snapshot;
mod sqlite;
mod sqlite_catalog;
mod value;

use std::fmt;

use design::{Design, Place, Problem, SourceKind, Spans};

pub use label::label;
pub use place::{given, place};
pub use value::Value;

/// A row of a table of the design, as the database has it.
#[derive(Clone, Debug, PartialEq, Eq)]
pub struct Record {
    /// The table's number in the design.
    pub table: usize,
    /// For each column of the design's table its value; none for NULL, and for a tuple with a NULL.
    pub values: Vec<Option<Value>>,
    /// For each column of the design's table the issue of its number: 0 where the column has none.
    pub issues: Vec<u8>,
    /// For each name of the table's `show` the value as the database writes it; none for NULL.
    pub shown: Vec<Option<String>>,
}

/// Which rows are asked for: all of one table that meet it.
#[derive(Clone, Debug, PartialEq, Eq)]
pub enum Condition {
    /// The column has the value, at the issue: 0 where the column has none.
    Value {
        /// The column.
        column: Place,
        /// The value.
        value: Value,
        /// The issue.
        issue: u8,
    },
    /// The column, an `integer` one, has a number from `low` to `high`, at issue 0.
    Range {
        /// The column.
        column: Place,
        /// The lowest number.
        low: u32,
        /// The highest number.
        high: u32,
    },
}

/// What keeps a database from being read.
#[derive(Clone, Debug, PartialEq, Eq)]
pub enum Failure {
    /// It can't be opened, or it went away: nothing that was read is wrong, nothing more can be read.
    Unreadable(String),
    /// It has something that no design can have, in the words for the user: a value outside its column's type, a key of NULL.
    Unfit(String),
}

impl fmt::Display for Failure {
    fn fmt(&self, out: &mut fmt::Formatter<'_>) -> fmt::Result {
        match self {
            Failure::Unreadable(why) | Failure::Unfit(why) => out.write_str(why),
        }
    }
}

/// A database, read in one snapshot.
pub trait Source {
    /// When the snapshot was taken, as `2025-11-17 12:41:07`.
    fn taken(&self) -> &str;

    /// All rows that meet a condition, by key, rising: whole, without a limit. A value of another type than the column's is unfit.
    fn fetch(&mut self, condition: &Condition) -> Result<Vec<Record>, Failure>;

    /// The row of a table with a key, if there is one; at issue 0, where the key has issues.
    fn with_key(&mut self, table: usize, key: &Value) -> Result<Option<Record>, Failure>;

    /// The lowest values that rows have in a column, each once, rising, at most so many, and beside each its issue: 0 where the column has none. NULL is
    /// no value.
    fn values(&mut self, column: Place, most: usize) -> Result<Vec<(Value, u8)>, Failure>;

    /// The value that texts mean in a column, as [`Source::fetch`] gives it: one text, or one for each part of a tuple.
    fn meant(&mut self, column: Place, texts: &[&str]) -> Result<Value, Failure>;

    /// How many rows the tables of the design have together.
    fn size(&mut self) -> Result<u64, Failure>;

    /// Ends the snapshot and takes a new one. The design is held to the catalog again; on a failure nothing more can be read.
    fn refresh(&mut self) -> Result<(), Failure>;
}

/// A database that a design was held to.
pub struct Opened {
    /// The database.
    pub source: Box<dyn Source>,
    /// What is worth a second look.
    pub warnings: Vec<Problem>,
}

/// Why a database isn't open.
#[derive(Clone, Debug, PartialEq, Eq)]
pub enum NotOpened {
    /// It can't be read.
    Unreadable(String),
    /// It isn't what the design says.
    Problems(Vec<Problem>),
}

/// Opens a database, takes a snapshot, and holds a design to it.
pub fn open(place: &design::Source, design: &Design, spans: &Spans) -> Result<Opened, NotOpened> {
    match place.kind {
        SourceKind::Sqlite => snapshot::open(sqlite::Sqlite::open(&place.place)?, design, spans),
        SourceKind::Postgres => {
            snapshot::open(postgres::Postgres::open(&place.place)?, design, spans)
        }
    }
}

/// Drafts a design from a database: tables, keys, unique columns and types, and every foreign key as two links to choose from.
pub fn draft(place: &design::Source) -> Result<String, Failure> {
    let (title, draft) = match place.kind {
        SourceKind::Sqlite => {
            let mut database = sqlite::Sqlite::open(&place.place)?;
            (database.title(), draft::draft(&mut database)?)
        }
        SourceKind::Postgres => {
            let mut database = postgres::Postgres::open(&place.place)?;
            (database.title()?, draft::draft(&mut database)?)
        }
    };
    Ok(draft::text::text(draft, &title, place))
}
