//! Ranges: how they are joined, held and dropped. Their values all have issue 0.
//!
//! A dropped range may have any number of values, so that all that is held is loaded
//! again.

use crate::cache::{Cache, DESKS};
use crate::catalog::Catalog;
use crate::design::{number, u32_at, value, Design, Value};
use crate::desk::Answer;

/// The most ranges that a desk can hold.
const MOST_RANGES: usize = 8;

/// A range of a filling's candidates, both ends counted.
#[derive(Clone, Copy, Default, PartialEq, Eq, PartialOrd, Ord)]
pub struct Range {
    /// The filling.
    pub filling: u8,
    /// The lowest number.
    pub low: u32,
    /// The highest number.
    pub high: u32,
}

/// The range that an operation names.
#[inline(always)]
pub fn range_at(bytes: &[u8]) -> Range {
    Range {
        filling: bytes[1],
        low: u32_at(bytes, 2),
        high: u32_at(bytes, 6),
    }
}

impl Range {
    /// Whether the two are of one filling, and overlap or touch.
    fn meets(&self, other: &Range) -> bool {
        self.filling == other.filling
            && u64::from(self.low) <= u64::from(other.high) + 1
            && u64::from(other.low) <= u64::from(self.high) + 1
    }

    fn covers(&self, other: &Range) -> bool {
        self.filling == other.filling && self.low <= other.low && other.high <= self.high
    }
}

/// The ranges of all desks: none if all zeros.
#[derive(Clone, Copy)]
pub struct Ranges {
    count: [u8; DESKS],
    ranges: [[Range; MOST_RANGES]; DESKS],
}

impl Ranges {
    /// The ranges of a desk, which rise.
    #[inline(always)]
    fn of(&self, desk: u8) -> &[Range] {
        let desk = usize::from(desk) % DESKS;
        &self.ranges[desk][..usize::from(self.count[desk])]
    }

    /// The ranges of all desks.
    #[inline(always)]
    pub fn all(&self) -> impl Iterator<Item = &Range> {
        (0..DESKS as u8).flat_map(move |desk| self.of(desk))
    }

    /// Whether no desk holds one.
    #[inline(always)]
    pub fn are_none(&self) -> bool {
        self.count == [0; DESKS]
    }

    /// Whether a range has the value of a filling.
    #[inline(always)]
    pub fn have(&self, filling: u8, value: Value) -> bool {
        !self.are_none() && self.lowest(filling, value).is_some()
    }

    /// The lowest range that has the value of a filling: by its low, then its high.
    pub fn lowest(&self, filling: u8, value: Value) -> Option<Range> {
        let own = Range {
            filling,
            low: number(value),
            high: number(value),
        };
        let with_value = self.all().filter(|range| range.covers(&own));
        with_value.copied().min().filter(|_| value & 0xff == 0)
    }

    /// Joins a range to those of a desk, unless they would be too many.
    fn join(&mut self, desk: u8, range: Range) -> bool {
        let mut joined = [Range::default(); MOST_RANGES + 1];
        let (mut hull, mut count) = (range, 0);
        for own in self.of(desk) {
            if own.meets(&range) {
                hull.low = hull.low.min(own.low);
                hull.high = hull.high.max(own.high);
            } else {
                joined[count] = *own;
                count += 1;
            }
        }
        if count == MOST_RANGES {
            return false;
        }
        joined[count] = hull;
        joined[..=count].sort_unstable();
        let desk = usize::from(desk) % DESKS;
        self.ranges[desk].copy_from_slice(&joined[..MOST_RANGES]);
        self.count[desk] = count as u8 + 1;
        true
    }

    /// Takes out exactly this range of a desk.
    fn remove(&mut self, desk: u8, range: Range) -> bool {
        let Some(place) = self.of(desk).iter().position(|&own| own == range) else {
            return false;
        };
        let desk = usize::from(desk) % DESKS;
        self.ranges[desk].copy_within(place + 1.., place);
        self.count[desk] -= 1;
        true
    }
}

impl Cache {
    /// Holds a range.
    pub fn hold_range(&mut self, design: &Design, catalog: &Catalog, range: Range) -> Answer {
        if !is_right(design, range) {
            return Answer::Refused(5);
        }
        let filling = design.filling[usize::from(range.filling)];
        if range.low < filling.low || filling.high < range.high {
            return Answer::NoCandidate;
        }
        let mut own = self.ranges.of(self.desk).iter();
        if own.any(|own| own.covers(&range)) {
            return Answer::Held;
        }
        if !self.ranges.join(self.desk, range) {
            return Answer::Refused(8);
        }
        let end = self.reach_range(design, catalog, range, 0);
        self.load_from(design, catalog, end)
    }

    /// Drops a range.
    pub fn release_range(&mut self, design: &Design, catalog: &Catalog, range: Range) -> Answer {
        if !is_right(design, range) {
            return Answer::Refused(5);
        }
        if !self.ranges.remove(self.desk, range) {
            return Answer::Refused(10);
        }
        let before = self.rows;
        self.load_again(design, catalog);
        Answer::Dropped(before - self.rows)
    }

    /// Caches the rows that have a value of the range, and puts those that weren't
    /// cached at the queue's end, which it gives.
    pub(crate) fn reach_range(
        &mut self,
        design: &Design,
        catalog: &Catalog,
        range: Range,
        mut end: usize,
    ) -> usize {
        let column = design.filling[usize::from(range.filling)].column;
        let (low, high) = (value(range.low, 0), value(range.high, 0));
        for head in catalog.heads_between(column, low, high) {
            end = self.reach(catalog, head, usize::from(column.place), end);
        }
        end
    }
}

fn is_right(design: &Design, range: Range) -> bool {
    usize::from(range.filling) < design.fillings && 0 < range.low && range.low <= range.high
}
