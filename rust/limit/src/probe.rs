//! Probes: the lowest ground on which a value is known to be complete, and how
//! many cached rows have it.

use crate::cache::Cache;
use crate::catalog::{Catalog, NO_FILLING};
use crate::design::{number, Column, Design, Value};
use crate::desk::Answer;

impl Cache {
    /// PROBE.
    pub fn probe(
        &self,
        design: &Design,
        catalog: &Catalog,
        column: Column,
        value: Value,
    ) -> Answer {
        if !design.has(column) {
            return Answer::Refused(5);
        }
        if number(value) == 0 {
            return Answer::Refused(9);
        }
        match self.ground(design, catalog, column, value) {
            0 => Answer::Sent,
            // With a ground all rows that have the value are cached.
            ground => Answer::Ground {
                ground,
                rows: catalog.members(column, value).len(),
            },
        }
    }

    /// The lowest ground for the value in the column; 0 if there is none.
    pub fn ground(&self, design: &Design, catalog: &Catalog, column: Column, value: Value) -> u8 {
        let filling = catalog.filling[column.number()];
        if filling != NO_FILLING && self.holds(filling, value) {
            return 1;
        }
        let mut ending = catalog.ending[column.number()];
        while ending != 0 {
            let number = ending.trailing_zeros() as usize;
            ending &= ending - 1;
            if self.has_value(catalog, design.constraint[number].source, value) {
                return 2;
            }
        }
        if design.is_unique(column) && self.has_value(catalog, column, value) {
            return 3;
        }
        0
    }

    /// Whether a cached row has the value in the column.
    #[inline]
    fn has_value(&self, catalog: &Catalog, column: Column, value: Value) -> bool {
        let members = catalog.members(column, value).iter();
        members.into_iter().any(|&row| self.has(usize::from(row)))
    }
}
