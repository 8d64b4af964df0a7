//! The load that would give a probe a ground.
//!
//! The rows that would be one by themselves are taken, and then, against the
//! constraints, all rows that demand them: a load that adds one of all these gives
//! the probe a ground, and no other does but the probed value's own. None of these
//! rows is cached, since then those that it demands would be too.

use crate::cache::Cache;
use crate::catalog::Catalog;
use crate::design::{number, Column, Design, Value};
use crate::desk::Answer;
use crate::{CELLS, CONSTRAINTS, NO_ROW, ROWS};

/// The rows reached for one probe, by stamps: a stamp from an earlier one says
/// nothing, and neither does 0.
pub struct Opening {
    stamp: u32,
    /// For each row: reached.
    row: [u32; ROWS],
    /// For each head of a group and constraint that ends at its column: the rows that
    /// demand it have been reached.
    demanded: [u32; CONSTRAINTS * ROWS],
    /// The rows reached.
    queue: [u16; ROWS],
}

impl Opening {
    /// The opener of a value in a column.
    pub fn opener(
        &mut self,
        design: &Design,
        catalog: &Catalog,
        cache: &Cache,
        column: Column,
        value: Value,
    ) -> Answer {
        if !design.has(column) {
            return Answer::Refused(5);
        }
        if number(value) == 0 {
            return Answer::Refused(9);
        }
        if cache.ground(design, catalog, column, value) != 0 {
            return Answer::Open;
        }
        self.stamp += 1;
        let count = self.reach_grounds(design, catalog, column, value);
        let count = self.reach_back(design, catalog, count);
        for filling in 0..design.fillings as u8 {
            let least = self.least(design, filling, count, column, value);
            if let Some(value) = least {
                return Answer::Opener { filling, value };
            }
        }
        Answer::NoOpener
    }

    /// Reaches the rows that would be a ground by themselves.
    fn reach_grounds(
        &mut self,
        design: &Design,
        catalog: &Catalog,
        column: Column,
        value: Value,
    ) -> usize {
        let mut end = 0;
        let mut ending = catalog.ending[column.number()];
        while ending != 0 {
            let source = design.constraint[ending.trailing_zeros() as usize].source;
            ending &= ending - 1;
            end = self.reach_all(catalog.members(source, value), end);
        }
        if design.is_unique(column) {
            end = self.reach_all(catalog.members(column, value), end);
        }
        end
    }

    fn reach_all(&mut self, rows: &[u16], mut end: usize) -> usize {
        for &row in rows {
            end = self.reach(row, end);
        }
        end
    }

    #[inline(always)]
    fn reach(&mut self, row: u16, end: usize) -> usize {
        let reached = &mut self.row[usize::from(row)];
        if *reached == self.stamp {
            return end;
        }
        *reached = self.stamp;
        self.queue[end % ROWS] = row;
        end + 1
    }

    /// Reaches the rows that demand those reached, and so on, and gives their number.
    fn reach_back(&mut self, design: &Design, catalog: &Catalog, mut end: usize) -> usize {
        let mut at = 0;
        while at < end {
            let row = usize::from(self.queue[at % ROWS]);
            at += 1;
            let table = usize::from(design.row_table[row]) % CELLS;
            for link in catalog.entering[table].all() {
                let head = catalog.head[CELLS * row + usize::from(link.place)];
                if head < NO_ROW {
                    let number = usize::from(link.number);
                    end = self.reach_demanders(design, catalog, head, number, end);
                }
            }
        }
        end
    }

    /// Reaches the rows that demand a group by a constraint.
    fn reach_demanders(
        &mut self,
        design: &Design,
        catalog: &Catalog,
        head: u16,
        number: usize,
        mut end: usize,
    ) -> usize {
        let group = CONSTRAINTS * usize::from(head) + number;
        if self.demanded[group] == self.stamp {
            return end;
        }
        self.demanded[group] = self.stamp;
        let place = usize::from(design.constraint[number % CONSTRAINTS].source.place);
        let mut row = catalog.demander[group];
        while row < NO_ROW {
            end = self.reach(row, end);
            row = catalog.next[CELLS * usize::from(row) + place];
        }
        end
    }

    /// The least candidate of a filling that opens the value of a column, so many rows
    /// having been reached.
    fn least(
        &self,
        design: &Design,
        filling: u8,
        count: usize,
        column: Column,
        value: Value,
    ) -> Option<Value> {
        let own = design.filling[usize::from(filling)].column;
        let reached = self.queue[..count].iter().map(|&row| usize::from(row));
        let of_table = reached.filter(|&row| design.row_table[row] == own.table);
        let cells = of_table.map(|row| design.value(CELLS * row + usize::from(own.place)));
        let itself = (own == column).then_some(value);
        cells
            .chain(itself)
            .filter(|&value| design.is_candidate(filling, value))
            .min()
    }
}
