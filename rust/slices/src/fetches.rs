//! Lists of fetches as words: five each, in rising order.

use reference::script::{Column, Value};

use crate::library::FetchWords;

/// The fetches that were made, rising; the spans of a column don't overlap.
#[derive(Clone, Debug, Default, PartialEq, Eq)]
pub struct Fetches {
    list: Vec<FetchWords>,
}

/// Whether the fetch had all rows with the value in the column.
pub fn covers(fetch: &FetchWords, column: Column, value: Value) -> bool {
    let [kind, table, place, first, last] = *fetch;
    let same = (table as usize, place as usize) == (column.table, column.column);
    match kind {
        0 => same && (first, last) == (value.number, value.issue.into()),
        _ => same && value.issue == 0 && first <= value.number && value.number <= last,
    }
}

impl Fetches {
    /// Puts a fetch into the list: a value that isn't there, or a span that overlaps none.
    pub fn note(&mut self, fetch: FetchWords) {
        let place = self.list.partition_point(|other| *other < fetch);
        if self.list.get(place) != Some(&fetch) {
            self.list.insert(place, fetch);
        }
    }

    /// How many there are.
    pub fn count(&self) -> usize {
        self.list.len()
    }

    /// All their words.
    pub fn words(&self) -> Vec<u32> {
        self.list.concat()
    }

    /// Whether some fetch had all rows with the value in the column.
    pub fn cover(&self, column: Column, value: Value) -> bool {
        self.list.iter().any(|fetch| covers(fetch, column, value))
    }

    /// Takes out the fetch at a place.
    pub fn remove(&mut self, place: usize) {
        self.list.remove(place);
    }
}
