//! What is held: values and ranges, each by one of four desks (document 02, Req 07
//! and Req 10).

use crate::refusal::Cause;
use crate::script::{Pair, Range};

/// The number of desks.
pub const DESKS: usize = 4;

/// The most values that a desk can hold.
pub const MOST_VALUES: usize = 16;

/// The most values that all desks together can hold.
pub const MOST_VALUES_OF_ALL: usize = DESKS * MOST_VALUES;

/// The most ranges that a desk can hold.
pub const MOST_RANGES: usize = 8;

/// A held value and the desk that holds it.
#[derive(Clone, Copy, Debug, PartialEq, Eq)]
pub struct Owned {
    /// The desk.
    pub desk: usize,
    /// The value, with its filling.
    pub pair: Pair,
}

/// What all desks hold, and which of them is named.
#[derive(Clone, Debug, Default)]
pub struct Holding {
    /// The desk that operations are for.
    pub desk: usize,
    /// The held values, in order of reference.
    pub values: Vec<Owned>,
    /// The ranges of each desk, which rise by filling, then low, and have gaps within
    /// each filling.
    pub ranges: [Vec<Range>; DESKS],
}

impl Holding {
    /// Names the desk for what follows.
    pub fn name(&mut self, desk: usize) -> Result<(), Cause> {
        Cause::WrongOperand.unless(desk < DESKS)?;
        self.desk = desk;
        Ok(())
    }

    /// Whether the named desk holds the pair.
    pub fn owns(&self, pair: Pair) -> bool {
        self.values.contains(&self.own(pair))
    }

    /// Whether any desk holds the pair, by itself or in a range.
    pub fn holds(&self, pair: Pair) -> bool {
        let mut ranges = self.ranges.iter().flatten();
        self.values.iter().any(|owned| owned.pair == pair) || ranges.any(|range| range.has(pair))
    }

    /// Whether the range lies inside one that the named desk holds.
    pub fn covers(&self, range: Range) -> bool {
        let mut own = self.ranges[self.desk].iter();
        own.any(|o| o.filling == range.filling && o.low <= range.low && range.high <= o.high)
    }

    /// Holds a range for the named desk. Those that it overlaps or touches become one
    /// with it.
    pub fn add_range(&mut self, range: Range) -> Result<(), Cause> {
        let own = self.ranges[self.desk].iter().copied();
        let (met, mut ranges): (Vec<Range>, Vec<Range>) = own.partition(|own| own.meets(range));
        ranges.push(Range {
            low: met.iter().map(|met| met.low).fold(range.low, u32::min),
            high: met.iter().map(|met| met.high).fold(range.high, u32::max),
            ..range
        });
        ranges.sort_unstable();
        Cause::NoPlaceFree.unless(ranges.len() <= MOST_RANGES)?;
        self.ranges[self.desk] = ranges;
        Ok(())
    }

    /// Stops holding exactly this range for the named desk.
    pub fn remove_range(&mut self, range: Range) -> Result<(), Cause> {
        let own = &mut self.ranges[self.desk];
        let place = own.iter().position(|&own| own == range);
        own.remove(place.ok_or(Cause::NotHeld)?);
        Ok(())
    }

    /// Whether the named desk can hold one more value.
    pub fn has_room(&self) -> bool {
        let own = self.values.iter().filter(|owned| owned.desk == self.desk);
        own.count() < MOST_VALUES
    }

    /// Holds the pair for the named desk.
    pub fn add(&mut self, pair: Pair) {
        self.values.push(self.own(pair));
    }

    /// Stops holding the pair for the named desk.
    pub fn remove(&mut self, pair: Pair) -> Result<(), Cause> {
        let own = self.own(pair);
        let place = self.values.iter().position(|&owned| owned == own);
        self.values.remove(place.ok_or(Cause::NotHeld)?);
        Ok(())
    }

    fn own(&self, pair: Pair) -> Owned {
        Owned {
            desk: self.desk,
            pair,
        }
    }
}

impl Range {
    /// Whether the pair is one of the range's values, which all have issue 0.
    pub fn has(&self, pair: Pair) -> bool {
        let value = pair.value;
        pair.filling == self.filling
            && value.issue == 0
            && (self.low..=self.high).contains(&value.number)
    }

    /// Whether the ranges are of one filling and overlap or touch.
    pub(crate) fn meets(&self, other: Range) -> bool {
        let next = |high: u32| u64::from(high) + 1;
        self.filling == other.filling
            && u64::from(self.low) <= next(other.high)
            && u64::from(other.low) <= next(self.high)
    }
}
