//! Whether a design is even. That depends on the design alone, so it is worked
//! out once, when it is asked for first.
//!
//! Sets of tables and of constraints are bits of one number each.

use crate::design::Design;
use crate::desk::Answer;
use crate::{CELLS, CONSTRAINTS, TABLES};

/// What is known: nothing if all zeros.
pub struct Evenness {
    is_known: bool,
    is_uneven: bool,
    i: u8,
    j: u8,
}

impl Evenness {
    /// The report on even designs.
    #[inline]
    pub fn of(&mut self, design: &Design) -> Answer {
        if !self.is_known {
            self.work_out(design);
        }
        if self.is_uneven {
            Answer::Uneven {
                i: self.i,
                j: self.j,
            }
        } else {
            Answer::Even
        }
    }

    fn work_out(&mut self, design: &Design) {
        self.is_known = true;
        let constraints = &design.constraint[..design.constraints];
        let reaching = reaching(design);
        // For each table, the constraints that start there; and the same for each
        // column.
        let mut starting = [0u16; TABLES];
        let mut starting_at = [0u16; TABLES * CELLS];
        for (number, constraint) in constraints.iter().enumerate() {
            starting[usize::from(constraint.source.table)] |= 1 << number;
            starting_at[constraint.source.number()] |= 1 << number;
        }
        for (number, i) in (0..).zip(constraints) {
            let elsewhere = starting[usize::from(i.target.table)] & !starting_at[i.target.number()];
            let uneven = elsewhere & reaching[usize::from(i.source.table)];
            if uneven != 0 {
                self.is_uneven = true;
                self.i = number;
                self.j = uneven.trailing_zeros() as u8;
                return;
            }
        }
    }
}

/// For each table, the constraints whose target table reaches it in no or more
/// steps.
fn reaching(design: &Design) -> [u16; TABLES] {
    const { assert!(CONSTRAINTS <= 16 && TABLES <= 8) };
    let constraints = &design.constraint[..design.constraints];
    let mut reached = [0u8; TABLES];
    for (table, reached) in reached.iter_mut().enumerate() {
        *reached = 1 << table;
    }
    for constraint in constraints {
        reached[usize::from(constraint.source.table)] |= 1 << constraint.target.table;
    }
    for through in 0..TABLES {
        let more = reached[through];
        for reached in &mut reached {
            if *reached >> through & 1 == 1 {
                *reached |= more;
            }
        }
    }
    let mut reaching = [0u16; TABLES];
    for (number, constraint) in constraints.iter().enumerate() {
        let mut tables = reached[usize::from(constraint.target.table)];
        while tables != 0 {
            reaching[tables.trailing_zeros() as usize] |= 1 << number;
            tables &= tables - 1;
        }
    }
    reaching
}
