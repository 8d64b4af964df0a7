//! The rows of a slice: for each of the desk's numbers the row of the database that has it, known by its table and key.

use std::collections::HashMap;
use std::rc::Rc;

use design::{Design, Role};
use source::{label, Record};

use crate::issued::Issued;

/// The most rows of a desk.
pub const MOST_ROWS: usize = 512;

/// Which row of the database it is.
#[derive(Clone, Debug, PartialEq, Eq, PartialOrd, Ord, Hash)]
pub struct Identity {
    /// The table's number in the design.
    pub table: usize,
    /// The key, with its issue.
    pub key: Issued,
}

/// A row of the slice.
#[derive(Clone, Debug)]
pub struct Entry {
    /// Which row it is.
    pub identity: Rc<Identity>,
    /// The row as the database has it.
    pub record: Record,
    /// Its key, as users write it.
    pub key: String,
    /// How it is called: by the table's label, or else by its name and the key.
    pub label: String,
}

impl Entry {
    /// A row of the database; none if it has no key.
    pub(crate) fn new(design: &Design, record: Record) -> Option<Entry> {
        let columns = &design.tables[record.table].columns;
        let column = columns.iter().position(|column| column.role == Role::Key)?;
        let value = record.values[column].clone()?;
        let issue = record.issues[column];
        let key = Issued { value, issue };
        let text = key.to_string();
        let table = record.table;
        Some(Entry {
            label: label(&design.tables[table], &record),
            key: text,
            identity: Rc::new(Identity { table, key }),
            record,
        })
    }
}

/// All rows of a slice.
#[derive(Clone, Debug)]
pub(crate) struct Rows {
    at: Vec<Option<Rc<Entry>>>,
    numbers: HashMap<Rc<Identity>, u16>,
    /// No number below it is free.
    lowest: usize,
}

impl Rows {
    pub(crate) fn new() -> Rows {
        Rows {
            at: vec![None; MOST_ROWS],
            numbers: HashMap::new(),
            lowest: 0,
        }
    }

    pub(crate) fn len(&self) -> usize {
        self.numbers.len()
    }

    /// The lowest free number.
    pub(crate) fn free(&self) -> Option<u16> {
        let free = self.at[self.lowest..].iter().position(Option::is_none)?;
        u16::try_from(self.lowest + free).ok()
    }

    pub(crate) fn number(&self, identity: &Identity) -> Option<u16> {
        self.numbers.get(identity).copied()
    }

    pub(crate) fn get(&self, number: u16) -> Option<&Rc<Entry>> {
        self.at.get(usize::from(number))?.as_ref()
    }

    /// The rows by their numbers.
    pub(crate) fn iter(&self) -> impl Iterator<Item = (u16, &Rc<Entry>)> {
        let rows = (0..).zip(&self.at);
        rows.filter_map(|(number, row)| Some((number, row.as_ref()?)))
    }

    /// Puts a row at a number, in place of the one that has it.
    pub(crate) fn put(&mut self, number: u16, entry: Entry) {
        self.remove(number);
        let place = usize::from(number);
        self.numbers.insert(Rc::clone(&entry.identity), number);
        self.at[place] = Some(Rc::new(entry));
        if place == self.lowest {
            self.lowest += 1;
        }
    }

    pub(crate) fn remove(&mut self, number: u16) {
        let place = usize::from(number);
        if let Some(entry) = self.at[place].take() {
            self.numbers.remove(&entry.identity);
            self.lowest = self.lowest.min(place);
        }
    }
}
