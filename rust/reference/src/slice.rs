//! What a slice of a larger database still lacks: the desk's rows are a part of the rows of
//! some backend, and a list says what was fetched of that backend, whole. The desk's answers
//! are the backend's if every value that is needed was fetched whole: every held value, in
//! its filling's column, and every value that a cached row has in a constraint's source
//! column, in the constraint's target column.

use crate::design::Design;
use crate::desk::Desk;
use crate::script::{Column, Range, Value, BLANK};

/// One fetch: all rows of the backend with a value in a column, or all with a number from
/// `low` to `high` there, both ends counted, at issue 0.
#[derive(Clone, Copy, Debug, PartialEq, Eq)]
pub enum Fetch {
    /// Of a value.
    Value {
        /// The column.
        column: Column,
        /// The value.
        value: Value,
    },
    /// Of a span of numbers.
    Span {
        /// The column.
        column: Column,
        /// The lowest number.
        low: u32,
        /// The highest number.
        high: u32,
    },
}

impl Fetch {
    /// Whether the fetch had all rows with the value in the column.
    pub fn covers(self, of: Column, wanted: Value) -> bool {
        match self {
            Fetch::Value { column, value } => column == of && value == wanted,
            Fetch::Span { column, low, high } => {
                column == of && wanted.issue == 0 && (low..=high).contains(&wanted.number)
            }
        }
    }
}

impl Desk {
    /// What must be fetched next, if something must: the first of the held values in order
    /// of reference, then of the held ranges, desk by desk, then of what the constraints
    /// demand of the cached rows, both rising.
    pub fn missing(&self, fetches: &[Fetch]) -> Option<Fetch> {
        let lacking = Lacking {
            design: &self.design,
            fetches,
        };
        let of_fillings = |filling: usize| self.design.fillings[filling].column;
        let held = self.held();
        let mut values = held.values.iter().map(|owned| owned.pair);
        let of_values =
            values.find_map(|pair| lacking.value(of_fillings(pair.filling), pair.value));
        let mut ranges = held.ranges.iter().flatten();
        let of_ranges =
            || ranges.find_map(|range| lacking.range(of_fillings(range.filling), range));
        let mut rows = (0..self.cached.len()).filter(|&row| self.cached[row]);
        let of_rows = || rows.find_map(|row| lacking.row(row));
        of_values.or_else(of_ranges).or_else(of_rows)
    }
}

/// What is looked at: the slice's rows, and what was fetched.
struct Lacking<'a> {
    design: &'a Design,
    fetches: &'a [Fetch],
}

impl Lacking<'_> {
    /// Whether a value that is needed must still be fetched. A value of a unique column that
    /// a row has needn't be, since no other row of the backend has it.
    fn is_open(&self, column: Column, value: Value) -> bool {
        let fetched = self.fetches.iter().any(|fetch| fetch.covers(column, value));
        let mut rows = 0..self.design.rows.len();
        let alone =
            self.design.is_unique(column) && rows.any(|row| self.design.equals(row, column, value));
        value != BLANK && !fetched && !alone
    }

    fn value(&self, column: Column, value: Value) -> Option<Fetch> {
        let fetch = Fetch::Value { column, value };
        self.is_open(column, value).then_some(fetch)
    }

    /// The first number of a range that must still be fetched, with those behind it up to
    /// the next span that was fetched.
    fn range(&self, column: Column, range: &Range) -> Option<Fetch> {
        let numbers = range.low..=range.high;
        let mut firsts = self.after_known(column);
        firsts.push(range.low);
        firsts.retain(|&number| {
            numbers.contains(&number) && self.is_open(column, Value { number, issue: 0 })
        });
        let low = firsts.into_iter().min()?;
        let spans = self.fetches.iter().filter_map(|fetch| match *fetch {
            Fetch::Span {
                column: of, low, ..
            } if of == column => Some(low),
            _ => None,
        });
        let next = spans.filter(|&next| low < next && next <= range.high);
        let high = next.min().map_or(range.high, |next| next - 1);
        Some(Fetch::Span { column, low, high })
    }

    /// The numbers right behind what is known of a column. A range's first open number is
    /// one of these, unless it is the range's first.
    fn after_known(&self, column: Column) -> Vec<u32> {
        let fetched = self.fetches.iter().filter_map(|fetch| match *fetch {
            Fetch::Value { column: of, value } => (of == column).then_some(value.number),
            Fetch::Span {
                column: of, high, ..
            } => (of == column).then_some(high),
        });
        let cells = (0..self.design.rows.len()).filter_map(|row| self.design.cell(row, column));
        let known = fetched.chain(cells.map(|cell| cell.number));
        known.filter_map(|number| number.checked_add(1)).collect()
    }

    /// What the constraints, rising, demand of a row.
    fn row(&self, row: usize) -> Option<Fetch> {
        self.design.constraints.iter().find_map(|constraint| {
            let cell = self.design.cell(row, constraint.source)?;
            self.value(constraint.target, cell)
        })
    }
}
