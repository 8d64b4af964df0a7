//! A design whose names all name something.

use std::fmt;

use crate::print;

/// A design, each kind of item in the order of the file.
#[derive(Clone, Debug, Default, PartialEq, Eq)]
pub struct Design {
    /// What it is called.
    pub title: String,
    /// The database that it is for.
    pub source: Option<Source>,
    /// The tables.
    pub tables: Vec<Table>,
    /// The links.
    pub links: Vec<Link>,
    /// The loads.
    pub loads: Vec<Load>,
    /// The questions.
    pub questions: Vec<Question>,
}

/// A database.
#[derive(Clone, Debug, PartialEq, Eq)]
pub struct Source {
    /// Of which kind.
    pub kind: SourceKind,
    /// The file, or how to connect.
    pub place: String,
}

/// A kind of database.
#[derive(Clone, Copy, Debug, PartialEq, Eq)]
pub enum SourceKind {
    /// A file of SQLite.
    Sqlite,
    /// A PostgreSQL server.
    Postgres,
}

impl SourceKind {
    /// Every kind.
    pub const ALL: [SourceKind; 2] = [SourceKind::Sqlite, SourceKind::Postgres];

    /// As it is written.
    pub fn name(self) -> &'static str {
        match self {
            SourceKind::Sqlite => "sqlite",
            SourceKind::Postgres => "postgres",
        }
    }

    pub(crate) fn named(name: &str) -> Option<SourceKind> {
        SourceKind::ALL.into_iter().find(|kind| kind.name() == name)
    }
}

/// A table.
#[derive(Clone, Debug, PartialEq, Eq)]
pub struct Table {
    /// Its name in the design.
    pub name: String,
    /// Its name in the database, as it is written, where that is another one.
    pub from: Option<String>,
    /// How a row of it is called, with `{COLUMN}` where a value stands.
    pub label: Option<String>,
    /// Its columns.
    pub columns: Vec<Column>,
    /// The names of what is kept beside a row and shown.
    pub show: Vec<String>,
}

/// A column.
#[derive(Clone, Debug, PartialEq, Eq)]
pub struct Column {
    /// Its name.
    pub name: String,
    /// What it is beside a plain column.
    pub role: Role,
    /// Its type.
    pub kind: Type,
    /// The name of the column that has the issue of a number which was given again.
    pub issue: Option<String>,
}

/// What a column is beside a plain one.
#[derive(Clone, Copy, Debug, PartialEq, Eq)]
pub enum Role {
    /// Nothing.
    Plain,
    /// The table's key.
    Key,
    /// No value stands in it twice.
    Unique,
    /// A number that totals add.
    Measure,
}

impl Role {
    /// Whether no value stands twice in a column of it.
    pub fn is_unique(self) -> bool {
        matches!(self, Role::Key | Role::Unique)
    }
}

/// A column's type.
#[derive(Clone, Debug, PartialEq, Eq)]
pub enum Type {
    /// That of one column of the database.
    Single(Single),
    /// Several columns of the database in one cell.
    Tuple(Vec<String>),
}

/// The type of one column of the database.
#[derive(Clone, Copy, Debug, PartialEq, Eq)]
pub enum Single {
    /// A whole number from 1 to 4,294,967,295, which stands for itself.
    Integer,
    /// Another whole number.
    Bigint,
    /// A text.
    Text,
    /// A UUID.
    Uuid,
    /// A date.
    Date,
    /// A date and time.
    Timestamp,
    /// Yes or no.
    Boolean,
}

impl Single {
    /// All of them.
    pub const ALL: [Single; 7] = [
        Single::Integer,
        Single::Bigint,
        Single::Text,
        Single::Uuid,
        Single::Date,
        Single::Timestamp,
        Single::Boolean,
    ];

    /// The type's name, which is PostgreSQL's too.
    pub const fn name(self) -> &'static str {
        match self {
            Single::Integer => "integer",
            Single::Bigint => "bigint",
            Single::Text => "text",
            Single::Uuid => "uuid",
            Single::Date => "date",
            Single::Timestamp => "timestamp",
            Single::Boolean => "boolean",
        }
    }

    /// Whether its values are whole numbers.
    pub fn is_number(self) -> bool {
        matches!(self, Single::Integer | Single::Bigint)
    }

    pub(crate) fn named(name: &str) -> Option<Single> {
        Single::ALL.into_iter().find(|single| single.name() == name)
    }
}

impl Type {
    /// Whether its values are whole numbers.
    pub fn is_number(&self) -> bool {
        matches!(self, Type::Single(single) if single.is_number())
    }
}

impl From<Single> for Type {
    fn from(single: Single) -> Type {
        Type::Single(single)
    }
}

/// As it is written.
impl fmt::Display for Type {
    fn fmt(&self, out: &mut fmt::Formatter<'_>) -> fmt::Result {
        match self {
            Type::Single(single) => out.write_str(single.name()),
            Type::Tuple(parts) => write!(out, "({})", print::names(parts)),
        }
    }
}

/// A column of a design, by numbers: a table and, among its columns, one.
#[derive(Clone, Copy, Debug, PartialEq, Eq, PartialOrd, Ord, Hash)]
pub struct Place {
    /// The table's number.
    pub table: usize,
    /// The column's number among the table's columns.
    pub column: usize,
}

/// A link: for every row that is here, all rows of the target's table come along that have in the target the value which it has in the source.
#[derive(Clone, Debug, PartialEq, Eq)]
pub struct Link {
    /// The source column.
    pub source: Place,
    /// The target column.
    pub target: Place,
    /// How it is read to physicians.
    pub words: Option<String>,
}

/// A load.
#[derive(Clone, Debug, PartialEq, Eq)]
pub struct Load {
    /// Its name.
    pub name: String,
    /// The column whose values are loaded.
    pub column: Place,
    /// The lowest and the highest value, if not all can be loaded.
    pub values: Option<(u32, u32)>,
}

/// A question that a screen asks.
#[derive(Clone, Debug, PartialEq, Eq)]
pub struct Question {
    /// Its text.
    pub text: String,
    /// The column whose value is asked for; its table is that of position 0.
    pub column: Place,
    /// The tables joined, each the next position.
    pub joins: Vec<Join>,
    /// What is added up, if the question asks for a total.
    pub total: Option<Total>,
}

/// A table joined along a link.
#[derive(Clone, Copy, Debug, PartialEq, Eq)]
pub struct Join {
    /// The earlier position that the link starts from.
    pub position: usize,
    /// The link's number.
    pub link: usize,
}

/// A cell that is added up.
#[derive(Clone, Copy, Debug, PartialEq, Eq)]
pub struct Total {
    /// The position.
    pub position: usize,
    /// The column's number among those of the position's table.
    pub column: usize,
}

impl Design {
    /// The column at a place.
    pub fn column(&self, place: Place) -> &Column {
        &self.tables[place.table].columns[place.column]
    }

    /// `TABLE.COLUMN`, as it is written.
    pub fn column_name(&self, place: Place) -> String {
        let table = print::name(&self.tables[place.table].name);
        format!("{table}.{}", print::name(&self.column(place).name))
    }

    /// A link's text, by which it is known.
    pub fn link_name(&self, link: &Link) -> String {
        let source = self.column_name(link.source);
        format!("{source} -> {}", self.column_name(link.target))
    }

    /// The tables of a question's positions.
    pub fn positions(&self, question: &Question) -> Vec<usize> {
        let joined = question
            .joins
            .iter()
            .map(|join| self.links[join.link].target.table);
        std::iter::once(question.column.table)
            .chain(joined)
            .collect()
    }
}
