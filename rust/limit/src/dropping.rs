//! How a value is dropped, and how all is loaded again.
//!
//! There are two ways. The dropped rows, and what they reach, are put in doubt,
//! and what something outside of the doubt keeps is taken out of it again: that
//! is quick if little is in doubt. Else the values that are left are loaded into
//! an empty cache, until as many rows are cached as before, since the smallest
//! set for fewer values lies in the one for more.

use crate::cache::{filling_of, value_of, Cache};
use crate::catalog::Catalog;
use crate::design::{number, Design, Value};
use crate::desk::Answer;
use crate::{CELLS, CONSTRAINTS, NO_ROW, ROWS};

/// If more than this part of the cached rows is in doubt, all is loaded again.
const PART: usize = 6;

/// The rows in doubt during one drop, by stamps: a stamp from an earlier drop
/// says nothing, and neither does 0.
pub struct Doubt {
    stamp: u32,
    /// For each row: in doubt.
    row: [u32; ROWS],
    /// For each group, by its head and column: its rows have been put in doubt.
    group: [u32; CELLS * ROWS],
    /// For each head of a group and constraint: twice the stamp if no row
    /// outside of the doubt demands the group by it, and 1 more if one does.
    demanded: [u32; CONSTRAINTS * ROWS],
    /// For each group: its rows have been taken out of doubt.
    kept: [u32; CELLS * ROWS],
    /// The rows taken out of doubt.
    queue: [u16; ROWS],
}

impl Cache {
    /// DROP.
    pub fn drop(
        &mut self,
        design: &Design,
        catalog: &Catalog,
        filling: u8,
        value: Value,
    ) -> Answer {
        if usize::from(filling) >= design.fillings {
            return Answer::Refused(5);
        }
        if number(value) == 0 {
            return Answer::Refused(9);
        }
        let own = self.own(filling, value);
        let mut held = self.held[..self.held_count].iter();
        let Some(at) = held.position(|&held| held == own) else {
            return Answer::Refused(10);
        };
        let head = self.held_head[at];
        self.held.copy_within(at + 1..self.held_count, at);
        self.held_head.copy_within(at + 1..self.held_count, at);
        self.held_count -= 1;
        self.owned[usize::from(self.desk)] -= 1;
        if head == NO_ROW {
            return Answer::Dropped(0);
        }
        let place = usize::from(design.filling[usize::from(filling)].column.place);
        let holders = &mut self.holders[CELLS * usize::from(head) + place];
        *holders &= !(1 << self.desk);
        if *holders != 0 || self.ranges.have(filling, value) {
            return Answer::Dropped(0);
        }
        let before = self.rows;
        let is_last = self.held_count == 0 && self.ranges.are_none();
        if is_last || !self.settle(design, catalog, head, place) {
            self.load_again(design, catalog);
        }
        Answer::Dropped(before - self.rows)
    }

    /// Loads what is held into an empty cache.
    pub(crate) fn load_again(&mut self, design: &Design, catalog: &Catalog) {
        self.empty();
        let mut end = 0;
        for at in 0..self.held_count {
            let head = self.held_head[at];
            if head < NO_ROW {
                let filling = filling_of(self.held[at]) % design.filling.len();
                let place = usize::from(design.filling[filling].column.place);
                end = self.reach(catalog, head, place, end);
            }
        }
        let ranges = self.ranges;
        for &range in ranges.all() {
            end = self.reach_range(design, catalog, range, end);
        }
        let mut at = 0;
        while at < end && end < self.rows {
            end = self.follow(design, catalog, at, end);
            at += 1;
        }
        self.rows = end;
    }

    /// Finds the groups of what is held anew, and loads it into an empty cache: after a
    /// row has come or gone.
    pub fn reload(&mut self, design: &Design, catalog: &Catalog) -> Answer {
        let before: [bool; ROWS] = std::array::from_fn(|row| self.has(row));
        self.holders.fill(0);
        for at in 0..self.held_count {
            let (desk, filling) = (self.held[at] >> 48, filling_of(self.held[at]));
            let column = design.filling[filling % design.filling.len()].column;
            let head = catalog.find(column, value_of(self.held[at]));
            self.held_head[at] = head;
            if head < NO_ROW {
                let group = CELLS * usize::from(head) + usize::from(column.place);
                self.holders[group] |= 1 << desk;
            }
        }
        self.rows = ROWS + 1;
        self.load_again(design, catalog);
        let (mut came, mut went) = (0, 0);
        for (row, before) in before.into_iter().enumerate() {
            came += usize::from(self.has(row) && !before);
            went += usize::from(before && !self.has(row));
        }
        Answer::Rows { came, went }
    }

    /// Takes the rows out of the cache that nothing keeps, if few are in doubt.
    fn settle(&mut self, design: &Design, catalog: &Catalog, head: u16, place: usize) -> bool {
        self.doubt.stamp += 1;
        let Some(count) = self.put_in_doubt(design, catalog, head, place) else {
            return false;
        };
        let kept = self.take_demanded(design, catalog, count);
        let kept = self.take_followers(design, catalog, kept, count);
        if kept < count {
            self.forget(design, catalog, count);
        }
        self.rows -= count - kept;
        true
    }

    /// Puts in doubt the rows of a group and those that they reach, but for
    /// those that have a held value; gives their number, or nothing if they are
    /// too many.
    fn put_in_doubt(
        &mut self,
        design: &Design,
        catalog: &Catalog,
        head: u16,
        place: usize,
    ) -> Option<usize> {
        let most = self.rows / PART;
        let (mut at, mut end) = (0, self.doubt_group(design, catalog, head, place, 0));
        while at < end {
            if end > most {
                return None;
            }
            let row = usize::from(self.queue[at % ROWS]);
            at += 1;
            let table = usize::from(design.row_table[row]) % CELLS;
            for link in catalog.leaving[table].all() {
                let head = catalog.first[CONSTRAINTS * row + usize::from(link.number)];
                if head < NO_ROW {
                    let place = usize::from(link.place);
                    end = self.doubt_group(design, catalog, head, place, end);
                }
            }
        }
        Some(end)
    }

    #[inline(always)]
    fn doubt_group(
        &mut self,
        design: &Design,
        catalog: &Catalog,
        head: u16,
        place: usize,
        mut end: usize,
    ) -> usize {
        let stamp = self.doubt.stamp;
        let group = CELLS * usize::from(head) + place;
        if self.doubt.group[group] == stamp {
            return end;
        }
        self.doubt.group[group] = stamp;
        let mut row = usize::from(head);
        while row < ROWS {
            if self.doubt.row[row] != stamp && !self.has_held_value(design, catalog, row) {
                self.doubt.row[row] = stamp;
                self.queue[end % ROWS] = row as u16;
                end += 1;
            }
            row = usize::from(catalog.next[CELLS * row + place]);
        }
        end
    }

    /// Whether the row has a held value in a filling column.
    #[inline(always)]
    fn has_held_value(&self, design: &Design, catalog: &Catalog, row: usize) -> bool {
        let table = usize::from(design.row_table[row]) % CELLS;
        catalog.fillings[table].all().iter().any(|link| {
            let place = usize::from(link.place);
            let head = catalog.head[CELLS * row + place];
            head < NO_ROW
                && (self.holders[CELLS * usize::from(head) + place] != 0
                    || self
                        .ranges
                        .have(link.number, design.value(CELLS * row + place)))
        })
    }

    /// Takes the rows out of doubt that a cached row outside of it demands, and
    /// gives their number.
    fn take_demanded(&mut self, design: &Design, catalog: &Catalog, count: usize) -> usize {
        let mut kept = 0;
        for at in 0..count {
            let row = self.queue[at % ROWS];
            if self.is_demanded(design, catalog, usize::from(row)) {
                self.doubt.row[usize::from(row)] = 0;
                self.doubt.queue[kept % ROWS] = row;
                kept += 1;
            }
        }
        kept
    }

    fn is_demanded(&mut self, design: &Design, catalog: &Catalog, row: usize) -> bool {
        let table = usize::from(design.row_table[row]) % CELLS;
        catalog.entering[table].all().iter().any(|link| {
            let head = catalog.head[CELLS * row + usize::from(link.place)];
            let number = usize::from(link.number);
            head < NO_ROW && self.is_group_demanded(design, catalog, usize::from(head), number)
        })
    }

    /// Whether a cached row outside of the doubt demands the group by the
    /// constraint. A row that was taken out of doubt by then counts too.
    #[inline(always)]
    fn is_group_demanded(
        &mut self,
        design: &Design,
        catalog: &Catalog,
        head: usize,
        number: usize,
    ) -> bool {
        let stamp = self.doubt.stamp;
        let group = CONSTRAINTS * head + number;
        let known = self.doubt.demanded[group];
        if known / 2 == stamp {
            return known % 2 == 1;
        }
        let place = usize::from(design.constraint[number % CONSTRAINTS].source.place);
        let mut row = usize::from(catalog.demander[group]);
        while row < ROWS && !(self.has(row) && self.doubt.row[row] != stamp) {
            row = usize::from(catalog.next[CELLS * row + place]);
        }
        let found = row < ROWS;
        self.doubt.demanded[group] = 2 * stamp + u32::from(found);
        found
    }

    /// Takes out of doubt what the first `kept` rows taken out demand, and gives
    /// the number of all rows taken out, of `count` that were in doubt.
    fn take_followers(
        &mut self,
        design: &Design,
        catalog: &Catalog,
        mut kept: usize,
        count: usize,
    ) -> usize {
        let mut at = 0;
        while at < kept && kept < count {
            let row = usize::from(self.doubt.queue[at % ROWS]);
            at += 1;
            let table = usize::from(design.row_table[row]) % CELLS;
            for link in catalog.leaving[table].all() {
                let head = catalog.first[CONSTRAINTS * row + usize::from(link.number)];
                if head < NO_ROW {
                    kept = self.keep_group(catalog, head, usize::from(link.place), kept);
                }
            }
        }
        kept
    }

    #[inline(always)]
    fn keep_group(&mut self, catalog: &Catalog, head: u16, place: usize, mut kept: usize) -> usize {
        let doubt = &mut self.doubt;
        let group = CELLS * usize::from(head) + place;
        if doubt.kept[group] == doubt.stamp {
            return kept;
        }
        doubt.kept[group] = doubt.stamp;
        let mut row = usize::from(head);
        while row < ROWS {
            if doubt.row[row] == doubt.stamp {
                doubt.row[row] = 0;
                doubt.queue[kept % ROWS] = row as u16;
                kept += 1;
            }
            row = usize::from(catalog.next[CELLS * row + place]);
        }
        kept
    }

    /// Takes the rows that are still in doubt out of the cache; their groups are
    /// no longer full.
    fn forget(&mut self, design: &Design, catalog: &Catalog, count: usize) {
        for at in 0..count {
            let row = usize::from(self.queue[at % ROWS]);
            if self.doubt.row[row] != self.doubt.stamp {
                continue;
            }
            self.mark[row] = 0;
            let table = usize::from(design.row_table[row]) % CELLS;
            for place in 0..usize::from(design.columns[table]) {
                let head = catalog.head[CELLS * row + place];
                if head < NO_ROW {
                    self.full[CELLS * usize::from(head) + place] = 0;
                }
            }
        }
    }
}
