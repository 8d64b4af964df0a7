//! A database in memory: the smallest source that there is, which looks through all of its rows.

use std::cell::{Cell, RefCell};
use std::rc::Rc;

use design::{Design, Place, Role, Single, Type};
use source::{Condition, Failure, Record, Source, Value};

/// The rows of all tables, which a test changes while a session is open.
pub type Rows = Rc<RefCell<Vec<Record>>>;

/// A source over such rows.
pub struct Memory {
    design: Design,
    now: Rows,
    snapshot: Vec<Record>,
    /// How many fetches are made before the database goes away.
    pub left: Rc<Cell<usize>>,
}

impl Memory {
    pub fn new(design: &Design, now: &Rows) -> Memory {
        Memory {
            design: design.clone(),
            now: Rc::clone(now),
            snapshot: now.borrow().clone(),
            left: Rc::new(Cell::new(usize::MAX)),
        }
    }

    fn key(&self, record: &Record) -> Option<Value> {
        let columns = &self.design.tables[record.table].columns;
        let key = columns.iter().position(|column| column.role == Role::Key)?;
        record.values[key].clone()
    }

    fn goes_on(&mut self) -> Result<(), Failure> {
        match self.left.get() {
            0 => Err(Failure::Unreadable("the database went away".into())),
            left => {
                self.left.set(left - 1);
                Ok(())
            }
        }
    }
}

fn meets(record: &Record, condition: &Condition) -> bool {
    match condition {
        Condition::Value {
            column,
            value,
            issue,
        } => {
            record.table == column.table
                && record.values[column.column].as_ref() == Some(value)
                && record.issues[column.column] == *issue
        }
        Condition::Range { column, low, high } => {
            let Place { table, column } = *column;
            let number = match record.values.get(column) {
                Some(Some(Value::Number(number))) => *number,
                _ => return false,
            };
            let within = i64::from(*low) <= number && number <= i64::from(*high);
            record.table == table && record.issues[column] == 0 && within
        }
    }
}

impl Source for Memory {
    fn taken(&self) -> &str {
        "2025-11-17 12:41:07"
    }

    fn fetch(&mut self, condition: &Condition) -> Result<Vec<Record>, Failure> {
        self.goes_on()?;
        let rows = self.snapshot.iter();
        let mut found: Vec<Record> = rows
            .filter(|record| meets(record, condition))
            .cloned()
            .collect();
        found.sort_by_key(|record| self.key(record));
        Ok(found)
    }

    fn with_key(&mut self, table: usize, key: &Value) -> Result<Option<Record>, Failure> {
        let mut rows = self.snapshot.iter();
        let found =
            rows.find(|record| record.table == table && self.key(record).as_ref() == Some(key));
        Ok(found.cloned())
    }

    fn values(&mut self, column: Place, most: usize) -> Result<Vec<(Value, u8)>, Failure> {
        let rows = self
            .snapshot
            .iter()
            .filter(|record| record.table == column.table);
        let values = rows.filter_map(|record| {
            let value = record.values[column.column].clone()?;
            Some((value, record.issues[column.column]))
        });
        let mut values: Vec<(Value, u8)> = values.collect();
        values.sort();
        values.dedup();
        values.truncate(most);
        Ok(values)
    }

    fn meant(&mut self, column: Place, texts: &[&str]) -> Result<Value, Failure> {
        let kind = &self.design.column(column).kind;
        if let Type::Tuple(_) = kind {
            let parts = texts.iter().map(|text| match text.parse() {
                Ok(number) => Value::Number(number),
                Err(_) => Value::Text(text.to_string()),
            });
            return Ok(Value::Tuple(parts.collect()));
        }
        match kind {
            Type::Single(Single::Integer | Single::Bigint) => match texts[0].parse() {
                Ok(number) => Ok(Value::Number(number)),
                Err(_) => Err(Failure::Unfit(format!("`{}` is no whole number", texts[0]))),
            },
            Type::Single(Single::Boolean) => Ok(Value::Boolean(texts[0] == "true")),
            _ => Ok(Value::Text(texts[0].into())),
        }
    }

    fn size(&mut self) -> Result<u64, Failure> {
        Ok(self.snapshot.len() as u64)
    }

    fn refresh(&mut self) -> Result<(), Failure> {
        self.goes_on()?;
        self.snapshot = self.now.borrow().clone();
        Ok(())
    }
}
