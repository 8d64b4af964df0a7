//! The words of what is held: the named desk, the count of held values and the values,
//! then for each desk the count of its ranges and the ranges.

use super::flaw::Flaw;
use super::layout::{self, NAMED_DESK, VALUES};
use super::words::{byte, put, used, Flaws};
use crate::design::Design;
use crate::held::{Holding, DESKS};
use crate::script::{Pair, Range, Value};

const OF_VALUES: Flaws = Flaws {
    byte: Flaw::HeldByte,
    many: Flaw::ManyValues,
    unused: Flaw::UnusedValue,
};

const OF_RANGES: Flaws = Flaws {
    byte: Flaw::HeldByte,
    many: Flaw::ManyRanges,
    unused: Flaw::UnusedRange,
};

/// What is held, if some run holds it.
pub fn holding_from(design: &Design, words: &[u32]) -> Result<Holding, Flaw> {
    let named = byte(words[NAMED_DESK], Flaw::HeldByte)?;
    Flaw::NamedDesk.unless(named < DESKS)?;
    let mut held = Holding::default();
    for value in used(words, VALUES, &OF_VALUES)? {
        add_value(design, &mut held, value)?;
    }
    for desk in 0..DESKS {
        held.ranges[desk] = ranges_from(design, words, desk)?;
    }
    held.desk = named;
    Ok(held)
}

/// Adds a held value, for whose desk the holding is then named.
fn add_value(design: &Design, held: &mut Holding, words: &[u32]) -> Result<(), Flaw> {
    let desk = byte(words[0], Flaw::HeldByte)?;
    let filling = byte(words[1], Flaw::HeldByte)?;
    let issue = byte(words[3], Flaw::ValueIssue)? as u8;
    let number = words[2];
    let value = Value { number, issue };
    let pair = Pair { filling, value };
    held.name(desk).map_err(|_| Flaw::ValueDesk)?;
    Flaw::ValueFilling.unless(filling < design.fillings.len())?;
    Flaw::ValueNoCandidate.unless(design.is_candidate(pair))?;
    Flaw::ValueTwice.unless(!held.owns(pair))?;
    Flaw::ManyValuesOfDesk.unless(held.has_room())?;
    held.add(pair);
    Ok(())
}

fn ranges_from(design: &Design, words: &[u32], desk: usize) -> Result<Vec<Range>, Flaw> {
    let mut ranges = Vec::new();
    for range in used(words, layout::ranges(desk), &OF_RANGES)? {
        let filling = byte(range[0], Flaw::HeldByte)?;
        let (low, high) = (range[1], range[2]);
        let range = Range { filling, low, high };
        check_range(design, range)?;
        if let Some(&last) = ranges.last() {
            check_order(last, range)?;
        }
        ranges.push(range);
    }
    Ok(ranges)
}

fn check_range(design: &Design, range: Range) -> Result<(), Flaw> {
    Flaw::RangeFilling.unless(range.filling < design.fillings.len())?;
    Flaw::RangeEmpty.unless(range.low <= range.high)?;
    Flaw::RangeNoCandidates.unless(design.are_candidates(range))
}

/// A desk's ranges rise by filling, then low, and have gaps within each filling.
fn check_order(last: Range, range: Range) -> Result<(), Flaw> {
    Flaw::RangesFall.unless((last.filling, last.low) < (range.filling, range.low))?;
    let apart = last.filling != range.filling || last.high < range.low;
    Flaw::RangesOverlap.unless(apart)?;
    Flaw::RangesTouch.unless(!last.meets(range))
}

/// Lays out what is held.
pub fn put_holding(held: &Holding, words: &mut [u32]) {
    words[NAMED_DESK] = held.desk as u32;
    let values = held.values.iter().map(|owned| {
        let Pair { filling, value } = owned.pair;
        let Value { number, issue } = value;
        [owned.desk as u32, filling as u32, number, issue.into()]
    });
    put(words, VALUES, values);
    for (desk, ranges) in held.ranges.iter().enumerate() {
        let ranges = ranges.iter().map(|range| {
            let Range { filling, low, high } = *range;
            [filling as u32, low, high]
        });
        put(words, layout::ranges(desk), ranges);
    }
}
