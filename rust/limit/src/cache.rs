//! The held values and the rows cached for them, and how a value is loaded.
//!
//! A row is cached if its mark is the current epoch, and a group is full if its
//! own is: then all its rows are cached, and it needn't be walked again. A new
//! epoch empties the cache at once.

use crate::catalog::{Catalog, NO_FILLING};
use crate::design::{number, Column, Design, Value};
use crate::desk::Answer;
use crate::dropping::Doubt;
use crate::ranges::Ranges;
use crate::{CELLS, CONSTRAINTS, NO_ROW, ROWS};

/// The number of desks.
pub const DESKS: usize = 4;

/// The most values that a desk can hold.
pub const MOST_OWNED: usize = 16;

/// The most held values.
pub const MOST_HELD: usize = DESKS * MOST_OWNED;

/// What is held and cached. All zeros have to be emptied before the first use.
pub struct Cache {
    pub(crate) epoch: u32,
    /// How many rows are cached.
    pub(crate) rows: usize,
    pub(crate) mark: [u32; ROWS],
    /// For each group, by its head and column.
    pub(crate) full: [u32; CELLS * ROWS],
    /// Rows whose demands are still to be looked at, or have been.
    pub(crate) queue: [u16; ROWS],
    /// The desk that operations are for.
    pub(crate) desk: u8,
    /// How many values each desk holds.
    pub(crate) owned: [u8; DESKS],
    pub(crate) held_count: usize,
    /// The held values in order of reference, each with its desk as one key.
    pub(crate) held: [u64; MOST_HELD],
    /// The head of each held value's group.
    pub(crate) held_head: [u16; MOST_HELD],
    /// For each group, by its head and column: the desks that hold its value, bit
    /// i for desk i.
    pub(crate) holders: [u8; CELLS * ROWS],
    /// The ranges that each desk holds.
    pub(crate) ranges: Ranges,
    pub(crate) doubt: Doubt,
}

/// A filling and a value as one number.
#[inline(always)]
fn key(filling: u8, value: Value) -> u64 {
    u64::from(filling) << 40 | value
}

/// What is left of a held value's key without its desk.
const WITHOUT_DESK: u64 = (1 << 48) - 1;

/// The filling of a key.
#[inline(always)]
pub(crate) fn filling_of(key: u64) -> usize {
    (key >> 40) as usize & 0xff
}

/// The value of a key.
#[inline(always)]
pub(crate) fn value_of(key: u64) -> Value {
    key & ((1 << 40) - 1)
}

impl Cache {
    /// Caches nothing from now on.
    pub(crate) fn empty(&mut self) {
        self.epoch += 1;
    }

    /// Whether the row is cached.
    #[inline(always)]
    pub fn has(&self, row: usize) -> bool {
        self.mark[row] == self.epoch
    }

    /// Whether some desk holds the pair, by itself or in a range.
    #[inline(always)]
    pub fn holds(&self, filling: u8, value: Value) -> bool {
        let key = key(filling, value);
        let mut held = self.held[..self.held_count].iter();
        held.any(|held| held & WITHOUT_DESK == key) || self.ranges.have(filling, value)
    }

    /// The key of a pair that the named desk holds.
    #[inline(always)]
    pub(crate) fn own(&self, filling: u8, value: Value) -> u64 {
        u64::from(self.desk) << 48 | key(filling, value)
    }

    /// Whether the named desk holds as many values as it can.
    #[inline(always)]
    fn is_full(&self) -> bool {
        usize::from(self.owned[usize::from(self.desk)]) == MOST_OWNED
    }

    /// Names the desk for what follows.
    pub fn name(&mut self, desk: u8) -> Answer {
        if usize::from(desk) >= DESKS {
            return Answer::Refused(5);
        }
        self.desk = desk;
        Answer::Desk(desk)
    }

    /// REFER.
    pub fn refer(
        &mut self,
        design: &Design,
        catalog: &Catalog,
        filling: u8,
        value: Value,
    ) -> Answer {
        if usize::from(filling) >= design.fillings {
            return Answer::Refused(5);
        }
        if number(value) == 0 {
            return Answer::Refused(9);
        }
        if !design.is_candidate(filling, value) {
            return Answer::NoCandidate;
        }
        let own = self.own(filling, value);
        if self.held[..self.held_count].contains(&own) {
            return Answer::Held;
        }
        if self.is_full() {
            return Answer::Refused(8);
        }
        self.hold(design, catalog, filling, value)
    }

    /// Refers a value of the column that isn't held, as a query does that has no
    /// ground. Gives the filling, or nothing if the value can't be referred.
    pub fn fetch(
        &mut self,
        design: &Design,
        catalog: &Catalog,
        column: Column,
        value: Value,
    ) -> Option<u8> {
        let filling = catalog.filling[column.number()];
        if filling == NO_FILLING || !design.is_candidate(filling, value) || self.is_full() {
            return None;
        }
        self.hold(design, catalog, filling, value);
        Some(filling)
    }

    /// Holds a value from now on, for which there is room.
    fn hold(&mut self, design: &Design, catalog: &Catalog, filling: u8, value: Value) -> Answer {
        let column = design.filling[usize::from(filling)].column;
        let head = catalog.find(column, value);
        self.held[self.held_count] = self.own(filling, value);
        self.held_head[self.held_count] = head;
        self.held_count += 1;
        self.owned[usize::from(self.desk)] += 1;
        if head == NO_ROW {
            return Answer::Loaded { rows: 0, rounds: 0 };
        }
        let place = usize::from(column.place);
        self.holders[CELLS * usize::from(head) + place] |= 1 << self.desk;
        self.load(design, catalog, head, place)
    }

    /// Caches a group and what it demands, round by round.
    fn load(&mut self, design: &Design, catalog: &Catalog, head: u16, place: usize) -> Answer {
        let end = self.reach(catalog, head, place, 0);
        self.load_from(design, catalog, end)
    }

    /// Caches what the first rows of the queue demand, which have been added in round
    /// 0, round by round.
    pub(crate) fn load_from(&mut self, design: &Design, catalog: &Catalog, end: usize) -> Answer {
        let (mut from, mut to, mut rounds) = (0, end, 0);
        loop {
            let mut end = to;
            for at in from..to {
                end = self.follow(design, catalog, at, end);
            }
            if end == to {
                break;
            }
            rounds += 1;
            (from, to) = (to, end);
        }
        self.rows += to;
        Answer::Loaded { rows: to, rounds }
    }

    /// Caches the rows of a group and puts those that weren't cached at the
    /// queue's end, which it gives.
    #[inline(always)]
    pub(crate) fn reach(
        &mut self,
        catalog: &Catalog,
        head: u16,
        place: usize,
        mut end: usize,
    ) -> usize {
        let epoch = self.epoch;
        let full = &mut self.full[CELLS * usize::from(head) + place];
        if *full == epoch {
            return end;
        }
        *full = epoch;
        let mut row = usize::from(head);
        while row < ROWS {
            if self.mark[row] != epoch {
                self.mark[row] = epoch;
                self.queue[end % ROWS] = row as u16;
                end += 1;
            }
            row = usize::from(catalog.next[CELLS * row + place]);
        }
        end
    }

    /// Caches the groups that the row at a place of the queue demands.
    #[inline(always)]
    pub(crate) fn follow(
        &mut self,
        design: &Design,
        catalog: &Catalog,
        at: usize,
        mut end: usize,
    ) -> usize {
        let row = usize::from(self.queue[at % ROWS]);
        let table = usize::from(design.row_table[row]) % CELLS;
        for link in catalog.leaving[table].all() {
            let head = catalog.first[CONSTRAINTS * row + usize::from(link.number)];
            if head < NO_ROW {
                end = self.reach(catalog, head, usize::from(link.place), end);
            }
        }
        end
    }
}
