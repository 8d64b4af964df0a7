//! SQLite in memory as a contestant: loads and drops are recursive common table
//! expressions, probes, queries and totals are single statements, a row that comes or
//! goes is one and what it brings or takes along is another, and every column has an
//! index. Statements are prepared when a design is opened, and those of
//! probes, queries and totals off the clock.
//!
//! It does what the works need and no more: operands aren't checked, values have no
//! issue, held values aren't counted and neither are rounds, no total is too large, and queries and
//! totals don't count the rows behind their ground. Where that makes a difference,
//! it is in SQLite's favour.

mod database;
mod ffi;
mod sql;

use std::collections::HashMap;
use std::hint::black_box;

use notation::{Column, Command, Design, Join, Pair, Probe, Put, Query, Row, Total, Value};
use reference::ANSWER_WORDS;

use crate::contestant::{
    run_one_by_one, Answer, Contestant, OpenDesk, Opening, Operation, Operations,
};
use crate::work::MOST_ROWS;
use database::{Database, OutOfTime, Statement};

/// SQLite with a database in memory.
pub struct Sqlite;

impl Contestant for Sqlite {
    fn name(&self) -> &'static str {
        "SQLite"
    }

    fn open(&self, design: &Opening) -> Box<dyn OpenDesk> {
        let design = &design.design;
        let database = Database::open();
        for statement in sql::tables(design) {
            database.execute(&statement);
        }
        insert_rows(&database, design);
        for statement in sql::indexes(design) {
            database.execute(&statement);
        }
        Box::new(Desk::new(design, database))
    }
}

/// A design in a database.
struct Desk {
    design: Design,
    hold: Statement,
    release: Statement,
    /// For each filling.
    loads: Vec<Statement>,
    unload: Statement,
    reload: Statement,
    /// For each table.
    inserts: Vec<Statement>,
    removes: Vec<Statement>,
    /// The table of each row by its number, 0 for free ones.
    row_tables: [u8; MOST_ROWS],
    /// For each column.
    grounds: HashMap<Column, Statement>,
    probes: HashMap<Column, Statement>,
    queries: HashMap<Shape, Statement>,
    /// By that, and the position and column of the cell.
    totals: HashMap<(Shape, u8, u8), Statement>,
    database: Database,
}

/// The statement that inserts a row, for each table.
fn inserts(database: &Database, design: &Design) -> Vec<Statement> {
    let inserts = (0..design.tables.len()).map(|table| sql::insert_row(design, table));
    inserts.map(|sql| database.prepare(&sql)).collect()
}

/// A row's number and its cells, as it is inserted.
fn values(design: &Design, number: i64, row: &Row) -> Vec<i64> {
    let columns = usize::from(design.tables[usize::from(row.table)].columns);
    let cells = row.cells[..columns].iter().map(|&cell| i64::from(cell));
    [number].into_iter().chain(cells).collect()
}

/// Inserts the rows in one transaction.
fn insert_rows(database: &Database, design: &Design) {
    let mut inserts = inserts(database, design);
    database.execute("BEGIN");
    for (number, row) in (0..).zip(&design.rows) {
        let insert = &mut inserts[usize::from(row.table)];
        let done = insert.run(&values(design, number, row), |_| true);
        assert_eq!(done, Ok(()), "rows are inserted in time");
    }
    database.execute("COMMIT");
}

impl OpenDesk for Desk {
    fn prepare(&mut self, operations: &Operations) {
        let (design, database) = (&self.design, &self.database);
        for operation in &operations.list {
            match operation.command {
                Command::Probe(Probe { column, .. }) => {
                    let probes = self.probes.entry(column);
                    probes.or_insert_with(|| database.prepare(&sql::probe(design, column)));
                }
                Command::Query(query) => {
                    let queries = self.queries.entry(shape(&query));
                    queries.or_insert_with(|| database.prepare(&sql::query(design, &query)));
                }
                Command::Total(total) => {
                    let totals = self.totals.entry(total_shape(&total));
                    totals.or_insert_with(|| database.prepare(&sql::total(design, &total)));
                }
                _ => {}
            }
        }
    }

    fn answer(&mut self, operation: &Operation) -> Answer {
        self.database.begin();
        self.perform(operation).unwrap_or(Answer::OutOfTime)
    }

    fn run(&mut self, operations: &Operations) -> usize {
        self.database.begin();
        run_one_by_one(operations, |operation| {
            black_box(self.perform(operation)).is_ok()
        })
    }
}

impl Desk {
    fn new(design: &Design, database: Database) -> Desk {
        let loads = design.fillings.iter();
        let columns = design.columns().into_iter();
        let tables = 0..design.tables.len();
        let mut row_tables = [0; MOST_ROWS];
        for (table, row) in row_tables.iter_mut().zip(&design.rows) {
            *table = row.table;
        }
        Desk {
            hold: database.prepare(sql::HOLD),
            release: database.prepare(sql::RELEASE),
            loads: loads
                .map(|filling| database.prepare(&sql::load(design, filling)))
                .collect(),
            unload: database.prepare(&sql::unload(design)),
            reload: database.prepare(&sql::reload(design)),
            inserts: inserts(&database, design),
            removes: tables
                .map(|table| database.prepare(&sql::remove_row(table)))
                .collect(),
            row_tables,
            grounds: columns
                .map(|column| (column, database.prepare(&sql::ground(design, column))))
                .collect(),
            probes: HashMap::new(),
            queries: HashMap::new(),
            totals: HashMap::new(),
            design: design.clone(),
            database,
        }
    }

    fn perform(&mut self, operation: &Operation) -> Result<Answer, OutOfTime> {
        match operation.command {
            Command::Refer(pair) => self.refer(pair),
            Command::Drop(pair) => self.drop(pair),
            Command::Probe(probe) => self.probe(probe),
            Command::Query(query) => self.query(&query),
            Command::Total(total) => self.total(&total),
            Command::Put(put) => self.put(put),
            Command::Take(number) => self.take(number),
            command => unreachable!("no work has {command}"),
        }
    }

    fn refer(&mut self, pair: Pair) -> Result<Answer, OutOfTime> {
        let number = usize::from(pair.filling);
        let filling = self.design.fillings[number];
        if !(filling.low..=filling.high).contains(&pair.value.number) {
            return Ok(Answer::NoCandidate);
        }
        let value = i64::from(pair.value.number);
        self.hold.run(&[pair.filling.into(), value], |_| true)?;
        if self.database.changes() == 0 {
            return Ok(Answer::Held);
        }
        self.loads[number].run(&[value], |_| true)?;
        Ok(Answer::Loaded(self.database.changes()))
    }

    fn drop(&mut self, pair: Pair) -> Result<Answer, OutOfTime> {
        let parameters = [pair.filling.into(), pair.value.number.into()];
        self.release.run(&parameters, |_| true)?;
        self.unload.run(&[], |_| true)?;
        Ok(Answer::Dropped(self.database.changes()))
    }

    /// Puts in a row, by which no other can go.
    fn put(&mut self, Put { number, row }: Put) -> Result<Answer, OutOfTime> {
        self.row_tables[usize::from(number)] = row.table;
        let values = values(&self.design, number.into(), &row);
        self.inserts[usize::from(row.table)].run(&values, |_| true)?;
        self.reload.run(&[], |_| true)?;
        Ok(Answer::Rows(self.database.changes(), 0))
    }

    /// Takes out a row, by which no other can come.
    fn take(&mut self, number: u16) -> Result<Answer, OutOfTime> {
        let table = self.row_tables[usize::from(number)];
        self.removes[usize::from(table)].run(&[number.into()], |_| true)?;
        self.unload.run(&[], |_| true)?;
        Ok(Answer::Rows(0, self.database.changes()))
    }

    fn probe(&mut self, probe: Probe) -> Result<Answer, OutOfTime> {
        let statement = self.probes.get_mut(&probe.column);
        let statement = statement.expect("a statement that has been prepared");
        let mut answer = Answer::Sent;
        statement.run(&[probe.value.number.into()], |row| {
            if row[0] > 0 {
                answer = Answer::Ground(row[0] as u8, row[1] as usize);
            }
            false
        })?;
        Ok(answer)
    }

    /// Whether a value has a ground in a column.
    fn has_ground(&mut self, column: Column, value: Value) -> Result<bool, OutOfTime> {
        let statement = self.grounds.get_mut(&column);
        let statement = statement.expect("a statement for every column");
        let mut ground = 0;
        statement.run(&[value.number.into()], |row| {
            ground = row[0];
            false
        })?;
        Ok(ground > 0)
    }

    fn query(&mut self, query: &Query) -> Result<Answer, OutOfTime> {
        let ground = self.fetch(query)?;
        if ground == Ground::None {
            return Ok(Answer::Sent);
        }
        let statement = self.queries.get_mut(&shape(query));
        let statement = statement.expect("a statement that has been prepared");
        let mut words = Vec::new();
        statement.run(&[query.value.number.into()], |row| {
            words.extend(row.iter().map(|&number| number as usize));
            words.len() <= ANSWER_WORDS
        })?;
        if words.len() <= ANSWER_WORDS {
            return Ok(Answer::Lists(words));
        }
        if let Ground::Fetched(pair) = ground {
            self.drop(pair)?;
        }
        Ok(Answer::Refused(11))
    }

    fn total(&mut self, total: &Total) -> Result<Answer, OutOfTime> {
        if self.fetch(&total.query)? == Ground::None {
            return Ok(Answer::Sent);
        }
        let statement = self.totals.get_mut(&total_shape(total));
        let statement = statement.expect("a statement that has been prepared");
        let mut sum = 0;
        statement.run(&[total.query.value.number.into()], |row| {
            sum = row[0] as u64;
            false
        })?;
        Ok(Answer::Total(sum))
    }

    /// Sees to it that a query's value has a ground, if it can have one.
    fn fetch(&mut self, query: &Query) -> Result<Ground, OutOfTime> {
        let Query { column, value, .. } = *query;
        if self.has_ground(column, value)? {
            return Ok(Ground::Standing);
        }
        let Some(pair) = self.pair_to_refer(column, value) else {
            return Ok(Ground::None);
        };
        self.refer(pair)?;
        Ok(Ground::Fetched(pair))
    }

    /// What a query without a ground refers first.
    fn pair_to_refer(&self, column: Column, value: Value) -> Option<Pair> {
        let mut fillings = (0..).zip(&self.design.fillings);
        let (number, filling) = fillings.find(|(_, filling)| filling.column == column)?;
        let is_candidate = (filling.low..=filling.high).contains(&value.number);
        is_candidate.then_some(Pair {
            filling: number,
            value,
        })
    }
}

/// What a query's value has for a ground.
#[derive(PartialEq, Eq)]
enum Ground {
    /// None: the query has to be sent.
    None,
    /// One from before.
    Standing,
    /// The pair that was referred for the query.
    Fetched(Pair),
}

/// Everything about a query but its value.
type Shape = (Column, [Join; 4], u8);

fn shape(query: &Query) -> Shape {
    (query.column, query.pairs, query.joins)
}

fn total_shape(total: &Total) -> (Shape, u8, u8) {
    (shape(&total.query), total.position, total.column)
}
