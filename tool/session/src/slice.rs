//! A desk over a part of a database, and the loop of docs/SLICES.md that keeps the part large enough: what an operation is answered is what the whole database
//! would answer.

use std::collections::HashSet;
use std::rc::Rc;

use design::Design;
use source::{Failure, Record, Source};
use wurzsige::{Cause, Desk, Fetch, Fetches, Refusal, Row};

use crate::ahead::Ahead;
use crate::brought::brought_with;
use crate::coder::Coder;
use crate::rows::{Entry, Rows, MOST_ROWS};
use crate::trouble::{TooLarge, Trouble};

/// The desk, the fetches that were made, and which row of the database has which number. Between operations nothing is missing.
#[derive(Clone)]
pub(crate) struct Slice {
    /// Shared while an operation may still be undone.
    pub(crate) desk: Rc<Desk>,
    pub(crate) fetches: Fetches,
    pub(crate) rows: Rows,
}

/// From where rows are fetched, and how they become the desk's.
pub(crate) struct Feed<'f, 'd> {
    pub(crate) design: &'d Design,
    pub(crate) source: &'f mut dyn Source,
    pub(crate) coder: &'f mut Coder<'d>,
}

/// Why rows aren't fetched.
pub(crate) enum Stopped {
    /// There are fewer free numbers than rows of a fetch that aren't here yet.
    Full {
        /// The fetch.
        fetch: Fetch,
        /// The rows.
        more: usize,
    },
    /// The database can't be read, or has what no desk can have.
    Failed(Failure),
}

impl From<Failure> for Stopped {
    fn from(failure: Failure) -> Stopped {
        Stopped::Failed(failure)
    }
}

impl Slice {
    /// A desk without rows.
    pub(crate) fn new(desk: Desk) -> Slice {
        Slice {
            desk: Rc::new(desk),
            fetches: Fetches::new(),
            rows: Rows::new(),
        }
    }

    /// The desk, to be changed.
    pub(crate) fn desk_mut(&mut self) -> &mut Desk {
        Rc::make_mut(&mut self.desk)
    }

    /// The loop. On an error the slice may be anything between, and is to be thrown away.
    ///
    /// Each time around the operation is carried out on a copy of the desk, and what the copy lacks is fetched, with what the rows that come will make it lack.
    pub(crate) fn perform<T>(
        &mut self,
        feed: &mut Feed,
        operation: &dyn Fn(&mut Desk) -> Result<T, Refusal>,
    ) -> Result<Result<T, Refusal>, Trouble> {
        loop {
            let mut copy = Desk::clone(&self.desk);
            let answer = operation(&mut copy);
            let lacking = lacking(&copy, &self.fetches);
            if lacking.is_empty() {
                self.desk = Rc::new(copy);
                return Ok(answer);
            }
            let ahead = Ahead::new(&self.desk, &self.fetches, &lacking);
            match self.fetch_all(feed, ahead) {
                Ok(()) => {}
                Err(Stopped::Failed(failure)) => return Err(failure.into()),
                Err(Stopped::Full { fetch, more }) => {
                    // refused or not, the rows that are cached after it have reasons
                    let mut copy = Desk::clone(&self.desk);
                    let _ = operation(&mut copy);
                    return Err(Trouble::TooLarge(TooLarge {
                        rows: self.rows.len() + more,
                        brought: brought_with(&copy, fetch, more)?,
                    }));
                }
            }
        }
    }

    /// Fetches whole what is asked for, and what the rows that come bring along.
    fn fetch_all(&mut self, feed: &mut Feed, mut ahead: Ahead) -> Result<(), Stopped> {
        let mut new = Vec::new();
        let mut fetched = Ok(());
        while let Some(fetch) = ahead.next() {
            let before = new.len();
            fetched = self.fetch(feed, fetch, &mut new);
            if fetched.is_err() {
                break;
            }
            new[before..].iter().for_each(|(_, row)| ahead.follow(row));
        }
        self.add(feed.design, &new)?;
        fetched
    }

    /// Fetches some values and spans whole, and nothing else.
    pub(crate) fn fetch_these(
        &mut self,
        feed: &mut Feed,
        fetches: &[Fetch],
    ) -> Result<(), Stopped> {
        let mut new = Vec::new();
        for &fetch in fetches {
            self.fetch(feed, fetch, &mut new)?;
        }
        Ok(self.add(feed.design, &new)?)
    }

    /// Fetches a value or span whole, and notes it. Rows that aren't there yet get numbers, and are to be added to the desk.
    fn fetch(
        &mut self,
        feed: &mut Feed,
        fetch: Fetch,
        new: &mut Vec<(u16, Row)>,
    ) -> Result<(), Stopped> {
        let found = fetched(feed, fetch)?;
        let is_new = |(entry, _): &&(Entry, Row)| self.rows.number(&entry.identity).is_none();
        let more = found.iter().filter(is_new).count();
        if self.rows.len() + more > MOST_ROWS {
            return Err(Stopped::Full { fetch, more });
        }
        for (entry, row) in found {
            if let Some(number) = self.rows.number(&entry.identity) {
                self.same(feed.design, number, &entry)?;
                continue;
            }
            let Some(number) = self.rows.free() else {
                unreachable!("there is room for all of them");
            };
            new.push((number, row));
            self.rows.put(number, entry);
        }
        self.fetches.note(fetch);
        Ok(())
    }

    /// Adds rows to the desk.
    fn add(&mut self, design: &Design, new: &[(u16, Row)]) -> Result<(), Failure> {
        if !new.is_empty() {
            self.desk = Rc::new(self.with_rows(design, new)?);
        }
        Ok(())
    }

    /// The desk with rows more. They aren't cached, since nothing was missing: so they can be written beside the others, and the library tests the whole once,
    /// where putting them in one by one would have it look through all rows for each.
    fn with_rows(&self, design: &Design, new: &[(u16, Row)]) -> Result<Desk, Failure> {
        let mut memory = self.desk.to_memory();
        for (number, row) in new {
            let number = usize::from(*number);
            memory.tables_mut()[number] = row.table;
            for (column, cell) in row.cells.iter().enumerate() {
                memory.cells_mut()[number * Row::CELLS + column] = cell.number;
                memory.issues_mut()[number * Row::CELLS + column] = cell.issue;
            }
        }
        if let Ok(desk) = Desk::from_memory(memory) {
            return Ok(desk);
        }
        // what is wrong is told by the first row that the desk doesn't take
        let mut desk = Desk::clone(&self.desk);
        for (number, row) in new {
            let entry = self.rows.get(*number).expect("it was just put there");
            put(design, &mut desk, *number, entry, row)?;
        }
        Ok(desk)
    }

    /// A row that is fetched again is the same: all is of one snapshot.
    fn same(&self, design: &Design, number: u16, entry: &Entry) -> Result<(), Failure> {
        let here = self.rows.get(number);
        match here.is_some_and(|here| here.record == entry.record) {
            true => Ok(()),
            false => Err(Failure::Unfit(format!(
                "{} {} was read twice, and differs: the database isn't read in one snapshot",
                design.tables[entry.identity.table].name, entry.key
            ))),
        }
    }

    /// Takes out the rows that aren't cached, so that their numbers are free, and makes the list of fetches anew: all that is asked for was fetched, for nothing
    /// was missing.
    pub(crate) fn shrink(&mut self) {
        let numbers = self.rows.iter().map(|(number, _)| number);
        let idle: Vec<u16> = numbers
            .filter(|&number| !self.desk.is_cached(number))
            .collect();
        for number in idle {
            remove(self.desk_mut(), number);
            self.rows.remove(number);
        }
        self.fetches = Fetches::new();
        for fetch in lacking(&self.desk, &self.fetches) {
            self.fetches.note(fetch);
        }
    }
}

/// All that a desk lacks beside what was fetched.
fn lacking(desk: &Desk, fetches: &Fetches) -> Vec<Fetch> {
    let mut noted = fetches.clone();
    let mut lacking = Vec::new();
    while let Some(fetch) = missing(desk, &noted) {
        noted.note(fetch);
        lacking.push(fetch);
    }
    lacking
}

/// What a desk still lacks.
fn missing(desk: &Desk, fetches: &Fetches) -> Option<Fetch> {
    let missing = desk.missing(fetches);
    missing.unwrap_or_else(|refusal| unreachable!("the list names the desk's columns: {refusal}"))
}

/// All rows of the database that a fetch asks for, with the rows of the desk that they are. None of them may be another one, and none may be there twice.
pub(crate) fn fetched(feed: &mut Feed, fetch: Fetch) -> Result<Vec<(Entry, Row)>, Failure> {
    let condition = feed.coder.condition(fetch);
    let records = feed.source.fetch(&condition)?;
    let mut keys = HashSet::new();
    let mut found = Vec::with_capacity(records.len());
    for record in records {
        let (entry, row) = entry(feed, record)?;
        asked_for(feed.design, fetch, &entry, &row)?;
        if !keys.insert(entry.identity.clone()) {
            return Err(Failure::Unfit(format!(
                "two rows of {} have the key {}",
                feed.design.tables[entry.identity.table].name, entry.key
            )));
        }
        found.push((entry, row));
    }
    Ok(found)
}

/// A row of the database with its key, and as one of the desk.
fn entry(feed: &mut Feed, record: Record) -> Result<(Entry, Row), Failure> {
    let row = feed.coder.row(&record)?;
    let table = record.table;
    let entry = Entry::new(feed.design, record);
    let entry = entry.ok_or_else(|| {
        let table = &feed.design.tables[table].name;
        Failure::Unfit(format!("a row of {table} has no key"))
    })?;
    Ok((entry, row))
}

/// The row has what was asked for as the desk compares it. A value that the database takes for equal, though it writes it otherwise, would be complete without rows.
fn asked_for(design: &Design, fetch: Fetch, entry: &Entry, row: &Row) -> Result<(), Failure> {
    let column = fetch.column();
    let cell = row.cells[usize::from(column.column)];
    if row.table == column.table && fetch.covers(column, cell) {
        return Ok(());
    }
    Err(Failure::Unfit(format!(
        "{} {} was read for a value that it doesn't have: write the value as the database does",
        design.tables[entry.identity.table].name, entry.key
    )))
}

/// Puts a row of the database into a desk.
pub(crate) fn put(
    design: &Design,
    desk: &mut Desk,
    number: u16,
    entry: &Entry,
    row: &Row,
) -> Result<(), Failure> {
    let Err(refusal) = desk.put_row(number, row) else {
        return Ok(());
    };
    let table = &design.tables[entry.identity.table].name;
    Err(Failure::Unfit(match refusal.cause {
        Cause::ValueTwice => format!(
            "a unique column of {table} has a value twice: {} isn't the first row with it",
            entry.label
        ),
        _ => format!("the desk doesn't take {table} {}: {refusal}", entry.key),
    }))
}

/// Takes a row out of a desk.
pub(crate) fn remove(desk: &mut Desk, number: u16) {
    let removed = desk.remove_row(number);
    removed.unwrap_or_else(|refusal| unreachable!("the desk has the slice's rows: {refusal}"));
}
