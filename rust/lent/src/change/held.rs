//! Flaws of what is held.

use compare::random::Random;
use reference::held::{DESKS, MOST_VALUES};
use reference::lent::layout::{self, List, FILLINGS, NAMED_DESK, VALUES};
use reference::lent::{Flaw, Lent};
use reference::script::{Command, Pair, Range, Value};

use super::words::{
    above_a_byte, any_filling, any_ranges, any_used, append, around, count, filling, use_unused,
};
use super::Aim;

/// The aims at flaws of what is held.
pub const AIMS: [Aim; 20] = [
    Aim::new(Flaw::HeldByte, byte),
    Aim::new(Flaw::HeldByte, |random, lent| {
        above_a_byte(random, &mut lent.held[NAMED_DESK]);
        Some(())
    }),
    Aim::new(Flaw::NamedDesk, |random, lent| {
        lent.held[NAMED_DESK] = around(random, DESKS as u32..=255);
        Some(())
    }),
    Aim::new(Flaw::ManyValues, |random, lent| {
        lent.held[VALUES.count] = around(random, VALUES.most as u32 + 1..=255);
        Some(())
    }),
    Aim::new(Flaw::ValueDesk, |random, lent| {
        let value = any_used(random, &lent.held, VALUES)?;
        lent.held[value] = around(random, DESKS as u32..=255);
        Some(())
    }),
    Aim::new(Flaw::ValueFilling, |random, lent| {
        let value = any_used(random, &lent.held, VALUES)?;
        lent.held[value + 1] = around(random, lent.design[FILLINGS.count]..=255);
        Some(())
    }),
    Aim::new(Flaw::ValueNoCandidate, value_no_candidate),
    Aim::new(Flaw::ValueIssue, |random, lent| {
        let value = any_used(random, &lent.held, VALUES)?;
        above_a_byte(random, &mut lent.held[value + 3]);
        Some(())
    }),
    Aim::new(Flaw::ValueTwice, |random, lent| {
        let value = any_used(random, &lent.held, VALUES)?;
        let copy = lent.held[value..value + 4].to_vec();
        append(&mut lent.held, VALUES, &copy)
    }),
    Aim::new(Flaw::ManyValuesOfDesk, many_values_of_desk),
    Aim::new(Flaw::UnusedValue, |random, lent| {
        use_unused(random, &mut lent.held, VALUES)
    }),
    Aim::new(Flaw::ManyRanges, |random, lent| {
        let list = layout::ranges(random.below(DESKS));
        lent.held[list.count] = around(random, list.most as u32 + 1..=255);
        Some(())
    }),
    Aim::new(Flaw::RangeFilling, |random, lent| {
        let (_, range) = range_of_several(random, lent)?;
        lent.held[range] = around(random, lent.design[FILLINGS.count]..=255);
        Some(())
    }),
    Aim::new(Flaw::RangeEmpty, |random, lent| {
        // A range of no values needs no rows.
        let list = any_ranges(random, lent, |count| count == 0)?;
        let (number, [_, _, low, high]) = any_filling(random, lent)?;
        let from = around(random, low..=high);
        append(&mut lent.held, list, &[number, from, from - 1])
    }),
    Aim::new(Flaw::RangeNoCandidates, range_no_candidates),
    Aim::new(Flaw::RangesFall, ranges_fall),
    Aim::new(Flaw::RangesOverlap, |random, lent| split(random, lent, 0)),
    Aim::new(Flaw::RangesTouch, |random, lent| split(random, lent, 1)),
    Aim::new(Flaw::UnusedRange, |random, lent| {
        let list = layout::ranges(random.below(DESKS));
        use_unused(random, &mut lent.held, list)
    }),
    Aim::new(Flaw::UnusedRange, |random, lent| {
        let list = any_ranges(random, lent, |count| count > 0)?;
        use_unused(random, &mut lent.held, list)
    }),
];

/// A count, or the desk or the filling of a value or range.
fn byte(random: &mut Random, lent: &mut Lent) -> Option<()> {
    let mut places = vec![VALUES.count];
    for number in 0..count(&lent.held, VALUES) {
        places.extend(VALUES.place(number).take(2));
    }
    for list in (0..DESKS).map(layout::ranges) {
        places.push(list.count);
        places.extend((0..count(&lent.held, list)).map(|number| list.place(number).start));
    }
    let place = *random.pick(&places);
    above_a_byte(random, &mut lent.held[place]);
    Some(())
}

fn value_no_candidate(random: &mut Random, lent: &mut Lent) -> Option<()> {
    let value = any_used(random, &lent.held, VALUES)?;
    let [_, _, low, high] = filling(lent, lent.held[value + 1]);
    lent.held[value + 2] = match high.checked_add(1) {
        Some(above) if random.percent(50) => above,
        _ => *random.pick(&[0, low - 1]),
    };
    Some(())
}

/// A desk gets 16 values, and then another desk's value too.
fn many_values_of_desk(random: &mut Random, lent: &mut Lent) -> Option<()> {
    let (filling, [_, _, low, high]) = any_filling(random, lent)?;
    if ((high - low) as usize) < MOST_VALUES {
        return None;
    }
    let desk = random.below(DESKS);
    let other = (desk + random.within(1..=DESKS - 1)) % DESKS;
    let mut work = lent.desk().ok()?;
    let named = work.held().desk;
    let pair = |number| Pair {
        filling: filling as usize,
        value: Value { number, issue: 0 },
    };
    // One of these 17 isn't among the desk's 16.
    let pairs: Vec<Pair> = (low..=low + MOST_VALUES as u32).map(pair).collect();
    work.perform(&Command::Desk(desk)).ok()?;
    for &pair in &pairs {
        let _ = work.perform(&Command::Refer(pair));
    }
    let left = *pairs.iter().find(|&&pair| !work.held().owns(pair))?;
    work.perform(&Command::Desk(other)).ok()?;
    work.perform(&Command::Refer(left)).ok()?;
    work.perform(&Command::Desk(named)).ok()?;
    let values = &work.held().values;
    let place = values
        .iter()
        .position(|owned| owned.desk == other && owned.pair == left)?;
    lent.keep(&work);
    lent.held[VALUES.place(place).start] = desk as u32;
    Some(())
}

fn range_no_candidates(random: &mut Random, lent: &mut Lent) -> Option<()> {
    let (_, range) = range_of_several(random, lent)?;
    let [_, _, low, high] = filling(lent, lent.held[range]);
    match high.checked_add(1) {
        Some(above) if random.percent(50) => lent.held[range + 2] = above,
        _ => lent.held[range + 1] = low - 1,
    }
    Some(())
}

/// Two of a desk's ranges exchanged, or one of them twice.
fn ranges_fall(random: &mut Random, lent: &mut Lent) -> Option<()> {
    if let Some(list) = any_ranges(random, lent, |count| count > 1) {
        let first = random.below(count(&lent.held, list) - 1);
        let (one, other) = (list.place(first).start, list.place(first + 1).start);
        for word in 0..list.width {
            lent.held.swap(one + word, other + word);
        }
        return Some(());
    }
    let (list, range) = range_of_several(random, lent)?;
    let range = lent.held[range..range + 3].to_vec();
    append(&mut lent.held, list, &range)
}

/// A range split into two that hold the same values: they overlap, or touch with a step
/// of 1 between them.
fn split(random: &mut Random, lent: &mut Lent, step: u32) -> Option<()> {
    let (list, range) = range_of_several(random, lent)?;
    if count(&lent.held, list) == list.most {
        return None;
    }
    let (filling, low, high) = (lent.held[range], lent.held[range + 1], lent.held[range + 2]);
    let first_high = around(random, low + 1 - step..=high - step);
    lent.held
        .copy_within(range..list.words().end - 3, range + 3);
    lent.held[range + 2] = first_high;
    let second = [filling, first_high + step, high];
    lent.held[range + 3..range + 6].copy_from_slice(&second);
    lent.held[list.count] += 1;
    Some(())
}

/// A held range of two values at least, with its desk's list; one is held first if there
/// is none.
fn range_of_several(random: &mut Random, lent: &mut Lent) -> Option<(List, usize)> {
    if random.percent(50) {
        hold(random, lent);
    }
    let mut found = find_ranges(lent);
    if found.is_empty() {
        hold(random, lent)?;
        found = find_ranges(lent);
    }
    random.pick_any(&found).copied()
}

fn find_ranges(lent: &Lent) -> Vec<(List, usize)> {
    let mut found = Vec::new();
    for list in (0..DESKS).map(layout::ranges) {
        let ranges = (0..count(&lent.held, list)).map(|number| list.place(number).start);
        let several = ranges.filter(|&range| lent.held[range + 1] < lent.held[range + 2]);
        found.extend(several.map(|range| (list, range)));
    }
    found
}

/// Holds a range of some candidates for any desk, if there is room for it.
fn hold(random: &mut Random, lent: &mut Lent) -> Option<()> {
    let (filling, [_, _, first, last]) = any_filling(random, lent)?;
    let low = around(random, first..=last);
    let high = low.saturating_add(around(random, 1..=9)).min(last);
    let filling = filling as usize;
    let mut work = lent.desk().ok()?;
    let named = work.held().desk;
    let range = Range { filling, low, high };
    work.perform(&Command::Desk(random.below(DESKS))).ok()?;
    work.perform(&Command::Hold(range)).ok()?;
    work.perform(&Command::Desk(named)).ok()?;
    lent.keep(&work);
    Some(())
}
