//! Totals: the sum of a cell over the lists of a query, group by group, without
//! the lists.
//!
//! The positions from position 0 to the cell's have sums, and all others counts.
//! 512^5 lists of cells below 2^32 come to less than 2^77, so that no sum
//! overflows.

use crate::cache::Cache;
use crate::catalog::Catalog;
use crate::design::Design;
use crate::desk::Answer;
use crate::query::{Asked, Listing, Plan, Rows, POSITIONS};
use crate::{CELLS, CONSTRAINTS, NO_ROW, ROWS};

/// The cell that is added up.
struct Cell<'a> {
    position: usize,
    place: usize,
    /// For each position, whether the cell's is this one or hangs on it.
    leads: [bool; POSITIONS],
    cells: &'a [u32; CELLS * ROWS],
}

impl Cell<'_> {
    /// The cell that a total names, unless an operand is wrong.
    #[inline]
    fn of<'a>(design: &'a Design, plan: &Plan, bytes: &[u8]) -> Option<Cell<'a>> {
        let (position, place) = (usize::from(bytes[16]), bytes[17]);
        if position > plan.last || place >= design.columns[usize::from(plan.table[position])] {
            return None;
        }
        let mut leads = [false; POSITIONS];
        let mut at = position;
        while at > 0 {
            leads[at] = true;
            at = usize::from(plan.source[at]);
        }
        leads[0] = true;
        Some(Cell {
            position,
            place: usize::from(place),
            leads,
            cells: &design.cells,
        })
    }
}

impl Listing {
    /// A total.
    pub fn total(
        &mut self,
        design: &Design,
        catalog: &Catalog,
        cache: &mut Cache,
        bytes: &[u8],
    ) -> Answer {
        let Some(plan) = Plan::of(design, bytes) else {
            return Answer::Refused(5);
        };
        let Some(cell) = Cell::of(design, &plan, bytes) else {
            return Answer::Refused(5);
        };
        let asked = match Asked::of(design, catalog, cache, bytes) {
            Ok(asked) => asked,
            Err(answer) => return answer,
        };
        if asked.head == NO_ROW {
            return Answer::Total(0);
        }
        self.stamp += 1;
        let rows = Rows { catalog, cache };
        let sum = self.sum(rows, &plan, &cell, 0, usize::from(asked.head));
        match u64::try_from(sum) {
            Ok(total) => Answer::Total(total),
            Err(_) => asked.refuse(design, catalog, cache, 13),
        }
    }

    /// The total over the lists from the position on that begin with a row of the
    /// group, the cell's position being among them.
    fn sum(&mut self, rows: Rows, plan: &Plan, cell: &Cell, position: usize, head: usize) -> u128 {
        let group = ROWS * position + head;
        if self.counted[group] == self.stamp {
            return self.sum[group];
        }
        let place = usize::from(plan.place[position]);
        let mut sum = 0;
        let mut row = head;
        while row < ROWS {
            if rows.cache.has(row) {
                sum += self.sum_with(rows, plan, cell, position, row);
            }
            row = usize::from(rows.catalog.next[CELLS * row + place]);
        }
        self.counted[group] = self.stamp;
        self.sum[group] = sum;
        sum
    }

    /// The same with the row at the position.
    #[inline(always)]
    fn sum_with(
        &mut self,
        rows: Rows,
        plan: &Plan,
        cell: &Cell,
        position: usize,
        row: usize,
    ) -> u128 {
        let mut sum = 1;
        if position == cell.position {
            sum = u128::from(cell.cells[CELLS * row + cell.place]);
        }
        for follower in plan.followers(position) {
            let number = usize::from(plan.constraint[follower]);
            let head = usize::from(rows.catalog.first[CONSTRAINTS * row + number]);
            if head >= ROWS || sum == 0 {
                return 0;
            }
            sum *= if cell.leads[follower] {
                self.sum(rows, plan, cell, follower, head)
            } else {
                u128::from(self.count(rows, plan, follower, head))
            };
        }
        sum
    }
}
