//! A database of a test's own.

use std::path::PathBuf;

use design::{Source, SourceKind};
use rusqlite::types::ValueRef;
use rusqlite::Connection;

use crate::{Folder, Server};

/// A database, in a file of SQLite or on the server.
pub enum Lab {
    /// A file `lab.db` in a folder of its own.
    Sqlite(Folder),
    /// A database on the test program's server, by its name.
    Postgres(String),
}

impl Lab {
    /// A file of SQLite, made by statements.
    pub fn sqlite(statements: &str) -> Lab {
        let lab = Lab::Sqlite(Folder::make());
        lab.run(statements);
        lab
    }

    /// A database on the server, made by statements.
    pub fn postgres(statements: &str) -> Lab {
        let lab = Lab::Postgres(Server::start().database());
        lab.run(statements);
        lab
    }

    /// The same in both.
    pub fn both(statements: &str) -> [Lab; 2] {
        [Lab::sqlite(statements), Lab::postgres(statements)]
    }

    /// The file, of SQLite.
    pub fn file(&self) -> PathBuf {
        match self {
            Lab::Sqlite(folder) => folder.path().join("lab.db"),
            Lab::Postgres(name) => panic!("{name} has no file"),
        }
    }

    /// What the tool is told to open.
    pub fn source(&self) -> Source {
        match self {
            Lab::Sqlite(_) => Source {
                kind: SourceKind::Sqlite,
                place: self.file().display().to_string(),
            },
            Lab::Postgres(name) => Source {
                kind: SourceKind::Postgres,
                place: Server::start().conninfo(name),
            },
        }
    }

    /// The same for the command line.
    pub fn argument(&self) -> String {
        let Source { kind, place } = self.source();
        format!("{}:{place}", kind.name())
    }

    /// The kind's name, for messages.
    pub fn name(&self) -> &'static str {
        self.source().kind.name()
    }

    /// Runs statements on a connection of their own.
    pub fn run(&self, statements: &str) {
        match self {
            Lab::Sqlite(_) => {
                let connection = Connection::open(self.file()).expect("a file of SQLite");
                let done = connection.execute_batch(statements);
                done.unwrap_or_else(|error| panic!("{statements}\n{error}"));
            }
            Lab::Postgres(name) => {
                Server::start().run(name, statements);
            }
        }
    }

    /// The rows of a query on a connection of its own, each value as text, NULL as none.
    pub fn rows(&self, query: &str) -> Vec<Vec<Option<String>>> {
        match self {
            Lab::Sqlite(_) => {
                let connection = Connection::open(self.file()).expect("a file of SQLite");
                sqlite_rows(&connection, query).unwrap_or_else(|error| panic!("{query}\n{error}"))
            }
            Lab::Postgres(name) => {
                let query = format!("\\pset null '\\\\N'\n\\pset fieldsep '\\t'\n{query};");
                let printed = Server::start().run(name, &query);
                let value = |text: &str| (text != "\\N").then(|| text.to_string());
                let rows = printed.lines();
                rows.map(|row| row.split('\t').map(value).collect())
                    .collect()
            }
        }
    }
}

fn sqlite_rows(connection: &Connection, query: &str) -> rusqlite::Result<Vec<Vec<Option<String>>>> {
    let mut statement = connection.prepare(query)?;
    let width = statement.column_count();
    let mut rows = statement.query([])?;
    let mut gathered = Vec::new();
    while let Some(row) = rows.next()? {
        let values = (0..width).map(|index| row.get_ref(index).map(text));
        gathered.push(values.collect::<rusqlite::Result<_>>()?);
    }
    Ok(gathered)
}

fn text(value: ValueRef) -> Option<String> {
    match value {
        ValueRef::Null => None,
        ValueRef::Integer(number) => Some(number.to_string()),
        ValueRef::Real(number) => Some(number.to_string()),
        ValueRef::Text(bytes) | ValueRef::Blob(bytes) => {
            Some(String::from_utf8_lossy(bytes).into_owned())
        }
    }
}
