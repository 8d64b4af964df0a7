//! Classes of columns: those that links connect, directly or through others. Their values are compared with each other, so that a class has one dictionary.

use design::{Design, Place};

/// The class of each column of a design.
#[derive(Clone, Debug)]
pub(crate) struct Classes {
    /// For each table, for each of its columns, the number of the class.
    numbers: Vec<Vec<usize>>,
    count: usize,
}

impl Classes {
    pub(crate) fn of(design: &Design) -> Classes {
        let mut count = 0;
        let mut number = |_| {
            count += 1;
            count - 1
        };
        let tables = design.tables.iter();
        let numbers = tables
            .map(|table| table.columns.iter().map(&mut number).collect())
            .collect();
        let mut classes = Classes { numbers, count };
        for link in &design.links {
            classes.join(link.source, link.target);
        }
        classes
    }

    /// The number of a column's class.
    pub(crate) fn class(&self, place: Place) -> usize {
        self.numbers[place.table][place.column]
    }

    /// A bound that no class's number reaches.
    pub(crate) fn count(&self) -> usize {
        self.count
    }

    fn join(&mut self, left: Place, right: Place) {
        let (kept, gone) = (self.class(left), self.class(right));
        let all = self.numbers.iter_mut().flatten();
        all.filter(|number| **number == gone)
            .for_each(|number| *number = kept);
    }
}
