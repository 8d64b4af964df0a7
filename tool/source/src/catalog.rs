//! What a database's catalog says of its tables, in the same words for every kind of database.

use std::fmt;

use design::{name, Code, Table};

/// A table's or view's name in the database.
#[derive(Clone, Debug, PartialEq, Eq)]
pub(crate) struct TableName {
    pub(crate) schema: Option<String>,
    pub(crate) name: String,
}

impl TableName {
    /// A name without a schema.
    pub(crate) fn plain(name: &str) -> TableName {
        TableName {
            schema: None,
            name: name.into(),
        }
    }

    /// The name by which a table of a design is found; none if it has more parts than a schema and a name.
    pub(crate) fn of(table: &Table) -> Option<TableName> {
        let Some(from) = &table.from else {
            return Some(TableName::plain(&table.name));
        };
        match &split(from)[..] {
            [only] => Some(TableName::plain(only)),
            [schema, name] => Some(TableName {
                schema: Some(schema.clone()),
                name: name.clone(),
            }),
            _ => None,
        }
    }

    /// As SQL has it.
    pub(crate) fn quoted(&self) -> String {
        match &self.schema {
            Some(schema) => format!("{}.{}", quoted(schema), quoted(&self.name)),
            None => quoted(&self.name),
        }
    }
}

/// As a design writes it behind `from`.
impl fmt::Display for TableName {
    fn fmt(&self, out: &mut fmt::Formatter<'_>) -> fmt::Result {
        if let Some(schema) = &self.schema {
            write!(out, "{}.", name(schema))?;
        }
        out.write_str(&name(&self.name))
    }
}

/// A name in double quotes, as SQL has it.
pub(crate) fn quoted(name: &str) -> String {
    format!("\"{}\"", name.replace('"', "\"\""))
}

/// The parts of a name that dots separate; a part in backquotes may have dots of its own.
fn split(from: &str) -> Vec<String> {
    let mut parts = vec![String::new()];
    let mut inside = false;
    for character in from.chars() {
        match (character, parts.last_mut()) {
            ('`', _) => inside = !inside,
            ('.', _) if !inside => parts.push(String::new()),
            (_, Some(last)) => last.push(character),
            (_, None) => {}
        }
    }
    parts
}

/// A table or view.
#[derive(Clone, Debug)]
pub(crate) struct Relation {
    /// As the catalog spells it.
    pub(crate) name: TableName,
    pub(crate) columns: Vec<Column>,
    pub(crate) unique: Vec<Unique>,
    pub(crate) foreign: Vec<ForeignKey>,
    /// Why no design can have it.
    pub(crate) refused: Option<Misfit>,
}

impl Relation {
    /// The column with a name, as the catalog spells it.
    pub(crate) fn column(&self, name: &str) -> Option<&Column> {
        self.columns.iter().find(|column| column.name == name)
    }
}

/// A column of a table or view.
#[derive(Clone, Debug)]
pub(crate) struct Column {
    pub(crate) name: String,
    /// Its type as the database writes it.
    pub(crate) written: String,
    /// The type that decides, in the words of that kind of database.
    pub(crate) base: String,
    /// The collation, if it may call two different texts equal.
    pub(crate) collation: Option<String>,
    /// Whether it is never NULL, as the catalog says.
    pub(crate) filled: bool,
    /// Whether it is a view's.
    pub(crate) derived: bool,
}

/// A unique index or constraint.
#[derive(Clone, Debug)]
pub(crate) struct Unique {
    /// Its columns; none for an expression.
    pub(crate) columns: Vec<String>,
    /// Whether it is the primary key.
    pub(crate) primary: bool,
    /// Why it says nothing of every row.
    pub(crate) weakness: Option<String>,
}

/// A foreign key.
#[derive(Clone, Debug)]
pub(crate) struct ForeignKey {
    /// The columns here.
    pub(crate) columns: Vec<String>,
    /// The table that they refer to.
    pub(crate) target: TableName,
    /// The columns there.
    pub(crate) targets: Vec<String>,
}

/// Why a column or table of the database isn't what a design says.
#[derive(Clone, Debug, PartialEq, Eq)]
pub(crate) struct Misfit {
    pub(crate) code: Code,
    pub(crate) message: String,
    pub(crate) help: String,
}

#[cfg(test)]
mod tests {
    use super::{quoted, split};

    #[test]
    fn names_are_cut_at_dots_outside_backquotes() {
        assert_eq!(split("subject"), ["subject"]);
        assert_eq!(split("lab.subject"), ["lab", "subject"]);
        assert_eq!(split("`my.lab`.subject"), ["my.lab", "subject"]);
        assert_eq!(split("a.b.c"), ["a", "b", "c"]);
    }

    #[test]
    fn quotes_are_doubled() {
        assert_eq!(quoted("a\"b"), "\"a\"\"b\"");
    }
}
