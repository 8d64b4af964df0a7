//! What a kind of database has to be able to do. What is the same for all of them stands in the files beside this one, so that a third kind is one file
//! more.

use design::Single;

use crate::catalog::{Column, Misfit, Relation, TableName};
use crate::kind::Kind;
use crate::{Failure, Value};

/// What a database has at one place.
#[derive(Clone, Debug, PartialEq)]
pub(crate) enum Cell {
    Null,
    /// A whole number; 0 or 1 for a boolean.
    Number(i64),
    /// A text, and whatever else the database writes as one.
    Text(String),
    /// What no column of a design can have, as a message shows it.
    Other(String),
}

impl Cell {
    /// The text, if it is one.
    pub(crate) fn text(&self) -> Option<String> {
        match self {
            Cell::Text(text) => Some(text.clone()),
            _ => None,
        }
    }
}

/// How a column of the database serves as one of a kind.
#[derive(Clone, Debug, PartialEq, Eq)]
pub(crate) struct Fit {
    /// Columns are compared in the same way exactly if this is the same.
    pub(crate) equality: &'static str,
    /// The condition in SQL, of a table `t`, that finds a value which isn't of the kind, where the database's types don't rule it out.
    pub(crate) strays: Option<String>,
}

/// A connection to a database.
pub(crate) trait Database {
    /// Ends the snapshot, if there is one, and takes another one of these tables; gives its time.
    fn begin(&mut self, tables: &[TableName]) -> Result<String, Failure>;

    /// What the catalog says of a table or view, if it is there.
    fn relation(&mut self, name: &TableName) -> Result<Option<Relation>, Failure>;

    /// The names of all tables and views.
    fn relations(&mut self) -> Result<Vec<TableName>, Failure>;

    /// Whether a column serves as one of a kind.
    fn fit(&self, column: &Column, kind: Kind) -> Result<Fit, Misfit>;

    /// The type that a column's own stands for by itself.
    fn natural(&self, column: &Column) -> Option<Single>;

    /// The name of a column in the catalog's spelling, for one that SQL would find.
    fn spelling<'a>(&self, columns: &'a [Column], name: &str) -> Option<&'a Column>;

    /// The parameter with a number, from 1, that is compared with a column.
    fn parameter(&self, column: &Column, number: usize) -> String;

    /// A column's expression by which its values are sorted as [`Value`]s are.
    fn order(&self, column: &Column) -> String;

    /// The expression of a column's text as the database writes it.
    fn shown(&self, column: &Column) -> String;

    /// Whether a text is written as values of a kind are.
    fn has_form(&self, kind: Kind, text: &str) -> bool;

    /// Whether a row may have a text in a column of a kind, in whatever form.
    fn may_have(&self, kind: Kind, text: &str) -> bool;

    /// The text by which the database writes what a user's text means, if it means anything of the kind, which is one of texts.
    fn canonical(
        &mut self,
        column: &Column,
        kind: Kind,
        text: &str,
    ) -> Result<Option<String>, Failure>;

    /// The rows of a statement, which is prepared once and kept.
    fn rows(&mut self, sql: &str, parameters: &[&Value]) -> Result<Vec<Vec<Cell>>, Failure>;
}
