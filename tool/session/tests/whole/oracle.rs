//! What the whole database says, in plain SQL: lists, totals and counts by joins that are written from the design; and the rows that a desk with every row
//! of it would have cached, by statements that follow the links until nothing is added.

use std::collections::BTreeSet;
use std::path::Path;

use design::{Design, Place, Question};
use rusqlite::types::ValueRef;
use rusqlite::Connection;

use crate::values::{joined, Val};
use crate::world::{Column, World};

/// Past so many rows it is known that they don't fit.
const ENOUGH: usize = 1_500;

/// The whole database, in a snapshot of its own.
pub struct Oracle<'w> {
    world: &'w World,
    connection: Connection,
    /// What the desks hold.
    pub held: Vec<Holding>,
}

/// A value or range that a desk holds.
#[derive(Clone, Debug, PartialEq)]
pub struct Holding {
    pub desk: u8,
    pub load: usize,
    pub what: What,
}

#[derive(Clone, Debug, PartialEq)]
pub enum What {
    Value(Val),
    Range(u32, u32),
}

/// A row, by its table and its key as users write it.
pub type Key = (usize, String);

impl<'w> Oracle<'w> {
    pub fn new(world: &'w World, file: &Path) -> Oracle<'w> {
        let connection = Connection::open(file).expect("a file of SQLite");
        let oracle = Oracle {
            world,
            connection,
            held: Vec::new(),
        };
        for table in &world.tables {
            oracle.run(&format!(
                "CREATE TEMP TABLE here_{} (k INTEGER PRIMARY KEY)",
                table.name
            ));
        }
        oracle.run("BEGIN");
        oracle.rows("SELECT count(*) FROM sqlite_master");
        oracle
    }

    /// The database as it is now.
    pub fn refresh(&self) {
        self.run("COMMIT");
        self.run("BEGIN");
        self.rows("SELECT count(*) FROM sqlite_master");
    }

    fn run(&self, statement: &str) -> usize {
        let run = self.connection.execute(statement, []);
        run.unwrap_or_else(|error| panic!("{statement}\n{error}"))
    }

    /// The rows of a query, each value as text.
    pub fn rows(&self, query: &str) -> Vec<Vec<String>> {
        let mut statement = self
            .connection
            .prepare(query)
            .unwrap_or_else(|error| panic!("{query}\n{error}"));
        let width = statement.column_count();
        let mut rows = statement.query([]).expect("a query");
        let mut found = Vec::new();
        while let Some(row) = rows.next().expect("a row") {
            let text = |column| match row.get_ref(column).expect("a value") {
                ValueRef::Null => "NULL".to_string(),
                ValueRef::Integer(number) => number.to_string(),
                ValueRef::Text(bytes) => String::from_utf8(bytes.to_vec()).expect("text"),
                other => panic!("{other:?}"),
            };
            found.push((0..width).map(text).collect());
        }
        found
    }

    pub fn number(&self, query: &str) -> u64 {
        let rows = self.rows(query);
        rows[0][0].parse().unwrap_or(0)
    }

    fn design(&self) -> &'w Design {
        &self.world.design
    }

    /// The lists of keys that a question has.
    pub fn lists(&self, question: &Question, value: &Val) -> Vec<Vec<String>> {
        let positions = self.design().positions(question);
        let keys: Vec<&Column> = positions
            .iter()
            .map(|&table| &self.world.tables[table].columns[0])
            .collect();
        let columns: Vec<String> = keys
            .iter()
            .enumerate()
            .flat_map(|(position, key)| {
                key.all()
                    .into_iter()
                    .map(move |name| format!("p{position}.{name}"))
            })
            .collect();
        let query = format!(
            "SELECT {} {}",
            columns.join(", "),
            from(self.world, question, value)
        );
        let rows = self.rows(&query).into_iter();
        rows.map(|row| {
            let mut rest = &row[..];
            let key = |key: &&Column| {
                let (here, behind) = rest.split_at(key.all().len());
                rest = behind;
                key_text(key, here)
            };
            keys.iter().map(key).collect()
        })
        .collect()
    }

    pub fn count_lists(&self, question: &Question, value: &Val) -> u64 {
        self.number(&format!(
            "SELECT count(*) {}",
            from(self.world, question, value)
        ))
    }

    /// What a measure adds up to.
    pub fn total(&self, question: &Question, value: &Val) -> u64 {
        let total = question.total.expect("a total");
        let query = format!(
            "SELECT coalesce(sum(p{}.m), 0) {}",
            total.position,
            from(self.world, question, value)
        );
        self.number(&query)
    }

    /// How many rows have a value in a column.
    pub fn count(&self, place: Place, value: &Val) -> u64 {
        let table = &self.world.tables[place.table].name;
        let is = is("t", self.world.column(place), value);
        self.number(&format!("SELECT count(*) FROM {table} t WHERE {is}"))
    }

    /// Finds the rows that a desk with all rows would have cached, and gives how many they are; none if they are far too many.
    pub fn follow(&self, held: &[Holding]) -> Option<usize> {
        let count = self.follow_to(held, ENOUGH);
        (count <= ENOUGH).then_some(count)
    }

    /// Whether a desk with all rows would have so many cached, or more.
    pub fn needs(&self, held: &[Holding], rows: usize) -> bool {
        self.follow_to(held, rows) >= rows
    }

    /// Finds the rows that a desk with all rows would have cached, until they are more than enough, and gives how many were found.
    fn follow_to(&self, held: &[Holding], enough: usize) -> usize {
        for table in &self.world.tables {
            self.run(&format!("DELETE FROM here_{}", table.name));
        }
        let mut count = 0;
        for holding in held {
            let place = self.design().loads[holding.load].column;
            let table = &self.world.tables[place.table].name;
            let column = self.world.column(place);
            let condition = match &holding.what {
                What::Value(value) => is("t", column, value),
                What::Range(low, high) => {
                    let issue = column
                        .issue()
                        .map_or(String::new(), |issue| format!(" AND t.{issue} = 0"));
                    format!("t.{} BETWEEN {low} AND {high}{issue}", column.parts()[0])
                }
            };
            count += self.run(&format!("INSERT OR IGNORE INTO here_{table} SELECT t.rowid FROM {table} t WHERE {condition}"));
        }
        loop {
            let before = count;
            for link in &self.design().links {
                let (source, target) = (
                    &self.world.tables[link.source.table].name,
                    &self.world.tables[link.target.table].name,
                );
                let equal = equal(
                    "s",
                    self.world.column(link.source),
                    "t",
                    self.world.column(link.target),
                );
                count += self.run(&format!(
                    "INSERT OR IGNORE INTO here_{target} SELECT t.rowid FROM here_{source} h CROSS JOIN {source} s ON s.rowid = h.k CROSS JOIN {target} t ON {equal}"
                ));
                if count > enough {
                    return count;
                }
            }
            if count == before {
                return count;
            }
        }
    }

    /// The rows that were found, by table and key.
    pub fn here(&self) -> BTreeSet<Key> {
        let tables = self.world.tables.iter().enumerate();
        let keys = tables.flat_map(|(number, table)| {
            let key = &table.columns[0];
            let columns: Vec<String> = key.all().iter().map(|name| format!("t.{name}")).collect();
            let query = format!(
                "SELECT {} FROM here_{name} h JOIN {name} t ON t.rowid = h.k",
                columns.join(", "),
                name = table.name
            );
            let rows = self.rows(&query).into_iter();
            rows.map(move |row| (number, key_text(key, &row)))
        });
        keys.collect()
    }

    /// The ground that a probe has, by the rows that were found: 1 to 3, or none.
    pub fn ground(&self, place: Place, value: &Val) -> Option<u8> {
        let column = self.world.column(place);
        let held = |holding: &Holding| {
            self.design().loads[holding.load].column == place
                && match &holding.what {
                    What::Value(held) => held == value,
                    What::Range(low, high) => {
                        let number: i64 = value.parts[0].sql().parse().expect("a number");
                        value.issue.unwrap_or(0) == 0
                            && i64::from(*low) <= number
                            && number <= i64::from(*high)
                    }
                }
        };
        if self.held.iter().any(held) {
            return Some(1);
        }
        let here = |place: Place, value: &Val| {
            let table = &self.world.tables[place.table].name;
            let is = is("t", self.world.column(place), value);
            self.number(&format!(
                "SELECT count(*) FROM here_{table} h JOIN {table} t ON t.rowid = h.k WHERE {is}"
            )) > 0
        };
        let links = self.design().links.iter();
        let mut sources = links.filter(|link| link.target == place);
        if sources.any(|link| here(link.source, value)) {
            return Some(2);
        }
        (column.key && here(place, value)).then_some(3)
    }

    /// Whether a link leads from one row to another.
    pub fn leads(
        &self,
        link: usize,
        from: &Key,
        to: &Key,
        key_of: impl Fn(&Key) -> String,
    ) -> bool {
        let link = &self.design().links[link];
        assert_eq!((link.source.table, link.target.table), (from.0, to.0));
        let equal = equal(
            "s",
            self.world.column(link.source),
            "t",
            self.world.column(link.target),
        );
        let query = format!(
            "SELECT count(*) FROM {} s JOIN {} t ON {equal} WHERE {} AND {}",
            self.world.tables[from.0].name,
            self.world.tables[to.0].name,
            key_of(from).replace("$", "s"),
            key_of(to).replace("$", "t"),
        );
        self.number(&query) == 1
    }
}

/// A key of the database as users write it.
pub fn key_text(key: &Column, texts: &[String]) -> String {
    let parts = key.parts().len();
    match texts.get(parts) {
        Some(issue) if issue != "0" => format!("{}#{issue}", joined(&texts[..parts])),
        _ => joined(&texts[..parts]),
    }
}

/// That a column has a value.
pub fn is(alias: &str, column: &Column, value: &Val) -> String {
    let names = column.all().into_iter();
    let literals = column.literals(Some(value)).into_iter();
    let terms = names
        .zip(literals)
        .map(|(name, literal)| format!("{alias}.{name} = {literal}"));
    terms.collect::<Vec<_>>().join(" AND ")
}

/// That two columns have one value. Where only one has issues, it is issue 0 that meets the other.
fn equal(left: &str, one: &Column, right: &str, other: &Column) -> String {
    let parts = one.parts().into_iter().zip(other.parts());
    let mut terms: Vec<String> = parts
        .map(|(a, b)| format!("{left}.{a} = {right}.{b}"))
        .collect();
    terms.extend(match (one.issue(), other.issue()) {
        (Some(a), Some(b)) => Some(format!("{left}.{a} = {right}.{b}")),
        (Some(a), None) => Some(format!("{left}.{a} = 0")),
        (None, Some(b)) => Some(format!("{right}.{b} = 0")),
        (None, None) => None,
    });
    terms.join(" AND ")
}

/// The joins of a question, and its condition.
pub fn from(world: &World, question: &Question, value: &Val) -> String {
    let name = |table: usize| &world.tables[table].name;
    let mut sql = format!("FROM {} p0", name(question.column.table));
    for (number, join) in question.joins.iter().enumerate() {
        let link = &world.design.links[join.link];
        let (before, here) = (format!("p{}", join.position), format!("p{}", number + 1));
        let equal = equal(
            &before,
            world.column(link.source),
            &here,
            world.column(link.target),
        );
        sql += &format!(" JOIN {} {here} ON {equal}", name(link.target.table));
    }
    format!(
        "{sql} WHERE {}",
        is("p0", world.column(question.column), value)
    )
}
