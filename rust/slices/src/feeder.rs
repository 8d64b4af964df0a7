//! Feeds a desk from a database, as docs/SLICES.md says: the operation is done on a copy;
//! what is missing then is fetched whole and put into the state before; and so on until
//! nothing is missing, and the copy is the desk.

use notation::{encode, Command, Put};
use reference::design::{Design, MOST_ROWS};
use reference::lent::{Lent, Told, FETCH_WORDS, FREE};
use reference::script::{Column, Row, Value, BLANK};

use crate::database::ANSWER_WORDS;
use crate::fetches::{covers, Fetches};
use crate::library::{FetchWords, Library};

/// A desk that has a slice of a database.
#[derive(Clone)]
pub struct Feeder<'a> {
    library: &'a dyn Library,
    /// The desk's memory.
    pub lent: Lent,
    /// For each number of a row, the number of that row in the database.
    pub at: Vec<Option<usize>>,
    /// What was fetched of the database, whole.
    pub fetches: Fetches,
}

/// What came of an operation.
#[derive(Clone, Debug, PartialEq, Eq)]
pub enum Fed {
    /// It was answered: what was told, and the words.
    Answered(Told, Vec<u32>),
    /// It would need more rows than a desk can have. The desk is as it was.
    TooManyRows,
}

/// No number is free for a row.
struct Full;

impl<'a> Feeder<'a> {
    /// A desk with a database's design and none of its rows.
    pub fn new(library: &'a dyn Library, design: &Design) -> Feeder<'a> {
        let mut lent = Lent::zeros();
        let empty = Design {
            rows: Vec::new(),
            ..design.clone()
        };
        lent.keep(&reference::desk::Desk::new(empty, 0));
        Feeder {
            library,
            lent,
            at: vec![None; MOST_ROWS],
            fetches: Fetches::default(),
        }
    }

    /// Carries out an operation over a database as it now is.
    pub fn perform(&mut self, database: &Design, command: &[u8]) -> Result<Fed, String> {
        self.shrinking(|feeder| {
            let told = feeder.feed(database, None, |_| command.to_vec())?;
            Ok(told.map(|(told, words)| Fed::Answered(told, words)))
        })
    }

    /// Takes over a row that has come to the database, if what was fetched has one of its
    /// values: otherwise nothing is known of these, and the row needn't be known either.
    /// Gives the rows that came and went.
    pub fn put(&mut self, database: &Design, number: usize) -> Result<Fed, String> {
        let row = database.rows[number].expect("the row has come");
        let mut columns = 0..database.tables[row.table].columns;
        let table = row.table;
        let matters = columns.any(|column| {
            self.fetches
                .cover(Column { table, column }, row.cells[column])
        });
        if !matters {
            return Ok(Fed::Answered(unchanged(), Vec::new()));
        }
        self.shrinking(|feeder| {
            let put = |feeder: &Feeder| {
                let free = feeder.free().unwrap_or(MOST_ROWS);
                put_bytes(free, &row)
            };
            if feeder.free().is_none() {
                return Ok(Err(Full));
            }
            match feeder.feed(database, Some(number), put)? {
                Err(full) => Ok(Err(full)),
                // The last free number went to a row that was fetched.
                Ok(_) if feeder.free().is_none() => Ok(Err(Full)),
                Ok((told, words)) => {
                    let new = (0..MOST_ROWS)
                        .find(|&row| feeder.at[row].is_none() && feeder.lent.tables[row] != FREE);
                    if let Some(new) = new {
                        feeder.at[new] = Some(number);
                    }
                    Ok(Ok(Fed::Answered(told, words)))
                }
            }
        })
    }

    /// Takes out a row that has gone from the database, if it is in the slice.
    pub fn take(&mut self, database: &Design, number: usize) -> Result<Fed, String> {
        let Some(row) = self.at.iter().position(|&at| at == Some(number)) else {
            return Ok(Fed::Answered(unchanged(), Vec::new()));
        };
        self.shrinking(|feeder| {
            let take = |_: &Feeder| encode(&[Command::Take(row as u16)]);
            match feeder.feed(database, None, take)? {
                Err(full) => Ok(Err(full)),
                Ok((told, words)) => {
                    feeder.at[row] = None;
                    Ok(Ok(Fed::Answered(told, words)))
                }
            }
        })
    }

    /// Tries an operation; if the numbers of rows don't suffice, once more without the rows
    /// that aren't cached. If they still don't, the desk is as it was.
    fn shrinking(
        &mut self,
        operation: impl Fn(&mut Feeder<'a>) -> Result<Result<Fed, Full>, String>,
    ) -> Result<Fed, String> {
        let before = self.clone();
        if let Ok(fed) = operation(self)? {
            return Ok(fed);
        }
        *self = before.clone();
        self.shrink()?;
        if let Ok(fed) = operation(self)? {
            return Ok(fed);
        }
        *self = before;
        Ok(Fed::TooManyRows)
    }

    /// The loop. `coming` is the number of a row that the operation itself puts in.
    fn feed(
        &mut self,
        database: &Design,
        coming: Option<usize>,
        command: impl Fn(&Feeder) -> Vec<u8>,
    ) -> Result<Result<(Told, Vec<u32>), Full>, String> {
        loop {
            let mut copy = self.lent.clone();
            let mut words = vec![0; ANSWER_WORDS];
            let told = (self.library).step(&command(self), &mut copy, &mut words);
            match self.missing(&copy)? {
                None => {
                    self.lent = copy;
                    return Ok(Ok((told, words)));
                }
                Some(fetch) => {
                    if self.fetch(database, coming, &fetch)?.is_err() {
                        return Ok(Err(Full));
                    }
                }
            }
        }
    }

    /// What must be fetched next for a state of this desk.
    fn missing(&self, lent: &Lent) -> Result<Option<FetchWords>, String> {
        let mut fetch = [0; FETCH_WORDS];
        let words = self.fetches.words();
        let count = self.fetches.count();
        match (self.library).missing_trusted(lent, &words, count, &mut fetch) {
            0 => Ok(None),
            1 => Ok(Some(fetch)),
            cause => Err(format!("missing is refused for cause {cause}")),
        }
    }

    /// Puts in all rows of the database that a fetch asks for, and notes the fetch.
    fn fetch(
        &mut self,
        database: &Design,
        coming: Option<usize>,
        fetch: &FetchWords,
    ) -> Result<Result<(), Full>, String> {
        for (number, row) in database.rows.iter().enumerate() {
            let Some(row) = row else { continue };
            let there = coming == Some(number) || self.at.contains(&Some(number));
            if there || !is_asked_for(fetch, database, row) {
                continue;
            }
            let Some(free) = self.free() else {
                return Ok(Err(Full));
            };
            let told = (self.library).step(&put_bytes(free, row), &mut self.lent, &mut []);
            if let Some(cause) = told.cause() {
                return Err(format!("row {number} is refused for cause {cause}"));
            }
            self.at[free] = Some(number);
        }
        self.fetches.note(*fetch);
        Ok(Ok(()))
    }

    fn free(&self) -> Option<usize> {
        self.at.iter().position(Option::is_none)
    }

    /// Takes out the rows that aren't cached, and makes the list of fetches anew: what the
    /// desk still asks for was all fetched, for otherwise something would have been missing.
    pub fn shrink(&mut self) -> Result<(), String> {
        for row in 0..MOST_ROWS {
            if self.at[row].is_some() && self.lent.marks[row] == 0 {
                let take = encode(&[Command::Take(row as u16)]);
                (self.library).step(&take, &mut self.lent, &mut []);
                self.at[row] = None;
            }
        }
        self.fetches = Fetches::default();
        while let Some(fetch) = self.missing(&self.lent)? {
            self.fetches.note(fetch);
        }
        Ok(())
    }
}

/// What a change of the database is answered that the slice needn't know of.
fn unchanged() -> Told {
    let (came, went) = (0, 0);
    Told::answered(&reference::desk::Answer::Rows { came, went }, 0)
}

fn is_asked_for(fetch: &FetchWords, design: &Design, row: &Row) -> bool {
    let table = row.table;
    let mut columns = 0..design.tables[table].columns;
    columns.any(|column| {
        let cell = row.cells[column];
        cell != BLANK && covers(fetch, Column { table, column }, cell)
    })
}

fn put_bytes(number: usize, row: &Row) -> Vec<u8> {
    let cells = row.cells.map(|Value { number, .. }| number);
    let issues = row.cells.map(|Value { issue, .. }| issue);
    let row = notation::Row {
        table: row.table as u8,
        cells,
        issues: Some(issues),
    };
    let number = number as u16;
    encode(&[Command::Put(Put { number, row })])
}
