//! Where things stand in lent words.

use std::ops::Range;

use crate::design::{MOST_CONSTRAINTS, MOST_FILLINGS, MOST_TABLES};
use crate::held::{MOST_RANGES, MOST_VALUES_OF_ALL};

/// A list in the words: where its count stands, and its places.
#[derive(Clone, Copy, Debug)]
pub struct List {
    /// The place of its count.
    pub count: usize,
    /// Where its first place begins.
    pub from: usize,
    /// The words of a place.
    pub width: usize,
    /// How many places it has.
    pub most: usize,
}

/// The tables of a design: columns, unique columns.
pub const TABLES: List = List {
    count: 0,
    from: 3,
    width: 2,
    most: MOST_TABLES,
};

/// The constraints: source table, source column, target table, target column.
pub const CONSTRAINTS: List = List {
    count: 1,
    from: TABLES.words().end,
    width: 4,
    most: MOST_CONSTRAINTS,
};

/// The fillings: table, column, low, high.
pub const FILLINGS: List = List {
    count: 2,
    from: CONSTRAINTS.words().end,
    width: 4,
    most: MOST_FILLINGS,
};

/// The place of the named desk among the words of what is held.
pub const NAMED_DESK: usize = 0;

/// The held values: desk, filling, number, issue.
pub const VALUES: List = List {
    count: 1,
    from: 2,
    width: 4,
    most: MOST_VALUES_OF_ALL,
};

/// The ranges of a desk: filling, low, high.
pub const fn ranges(desk: usize) -> List {
    let words = 1 + 3 * MOST_RANGES;
    let count = VALUES.words().end + words * desk;
    List {
        count,
        from: count + 1,
        width: 3,
        most: MOST_RANGES,
    }
}

impl List {
    /// The words of all places.
    pub const fn words(self) -> Range<usize> {
        self.from..self.from + self.width * self.most
    }

    /// The words of a place.
    pub const fn place(self, number: usize) -> Range<usize> {
        let from = self.from + self.width * number;
        from..from + self.width
    }
}
