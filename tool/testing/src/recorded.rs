//! A source that remembers what was fetched of it.

use std::cell::RefCell;
use std::rc::Rc;

use design::Place;
use source::{Condition, Failure, Record, Source, Value};

/// The conditions that were fetched, in their order.
pub type Fetched = Rc<RefCell<Vec<Condition>>>;

/// A source with the conditions that were fetched.
pub struct Recorded<'s> {
    source: &'s mut dyn Source,
    fetched: Fetched,
}

impl<'s> Recorded<'s> {
    /// Nothing was fetched yet.
    pub fn new(source: &'s mut dyn Source) -> Recorded<'s> {
        let fetched = Fetched::default();
        Recorded { source, fetched }
    }

    /// What was fetched, and will be.
    pub fn fetched(&self) -> Fetched {
        Rc::clone(&self.fetched)
    }
}

impl Source for Recorded<'_> {
    fn taken(&self) -> &str {
        self.source.taken()
    }

    fn fetch(&mut self, condition: &Condition) -> Result<Vec<Record>, Failure> {
        self.fetched.borrow_mut().push(condition.clone());
        self.source.fetch(condition)
    }

    fn with_key(&mut self, table: usize, key: &Value) -> Result<Option<Record>, Failure> {
        self.source.with_key(table, key)
    }

    fn values(&mut self, column: Place, most: usize) -> Result<Vec<(Value, u8)>, Failure> {
        self.source.values(column, most)
    }

    fn meant(&mut self, column: Place, texts: &[&str]) -> Result<Value, Failure> {
        self.source.meant(column, texts)
    }

    fn size(&mut self) -> Result<u64, Failure> {
        self.source.size()
    }

    fn refresh(&mut self) -> Result<(), Failure> {
        self.source.refresh()
    }
}
