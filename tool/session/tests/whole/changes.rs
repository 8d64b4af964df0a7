//! The databases that a session is over: how they are changed, and what they say themselves.

use design::Question;
use testing::Lab;

use crate::oracle::{from, key_text};
use crate::values::Val;
use crate::world::World;

/// A database that changes beside a session.
pub trait Database {
    /// Runs a statement.
    fn run(&self, statement: &str);

    /// Whether the oracle keeps the snapshot that the session has, while the database changes.
    fn keeps_snapshots(&self) -> bool;

    /// The lists of a question by the database itself, sorted, where that isn't the oracle.
    fn lists(&self, world: &World, question: &Question, value: &Val) -> Option<Vec<Vec<String>>>;
}

/// A file of SQLite, which is the oracle's too.
pub struct Sqlite<'l>(pub &'l Lab);

impl Database for Sqlite<'_> {
    fn run(&self, statement: &str) {
        self.0.run(statement);
    }

    fn keeps_snapshots(&self) -> bool {
        true
    }

    fn lists(&self, _: &World, _: &Question, _: &Val) -> Option<Vec<Vec<String>>> {
        None
    }
}

/// A PostgreSQL server, and the oracle's file of SQLite with the same rows.
pub struct Postgres<'l> {
    pub server: &'l Lab,
    pub file: &'l Lab,
}

impl Database for Postgres<'_> {
    fn run(&self, statement: &str) {
        self.server.run(statement);
        self.file.run(statement);
    }

    fn keeps_snapshots(&self) -> bool {
        false
    }

    fn lists(&self, world: &World, question: &Question, value: &Val) -> Option<Vec<Vec<String>>> {
        let positions = world.design.positions(question);
        let keys = positions
            .iter()
            .map(|&table| &world.tables[table].columns[0]);
        let columns = keys.clone().enumerate().flat_map(|(position, key)| {
            let names = key.all().into_iter();
            names.map(move |name| format!("p{position}.{name}"))
        });
        let columns: Vec<String> = columns.collect();
        let query = format!(
            "SELECT {} {}",
            columns.join(", "),
            from(world, question, value)
        );
        let rows = self.server.rows(&query).into_iter().map(|row| {
            let row: Vec<String> = row.into_iter().map(Option::unwrap_or_default).collect();
            let mut rest = &row[..];
            let key = |key: &crate::world::Column| {
                let (here, behind) = rest.split_at(key.all().len());
                rest = behind;
                key_text(key, here)
            };
            keys.clone().map(key).collect()
        });
        let mut rows: Vec<Vec<String>> = rows.collect();
        rows.sort();
        Some(rows)
    }
}
