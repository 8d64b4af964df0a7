//! Flaws of a design.

use compare::random::Random;
use reference::lent::layout::{List, CONSTRAINTS, FILLINGS, TABLES};
use reference::lent::{Flaw, Lent};

use super::words::{above_a_byte, any_used, append, around, columns, count, use_unused};
use super::Aim;

/// The aims at flaws of a design.
pub const AIMS: [Aim; 17] = [
    Aim::new(Flaw::DesignByte, byte),
    Aim::new(Flaw::ManyTables, |random, lent| many(random, lent, TABLES)),
    Aim::new(Flaw::ManyConstraints, |random, lent| {
        many(random, lent, CONSTRAINTS)
    }),
    Aim::new(Flaw::ManyFillings, |random, lent| {
        many(random, lent, FILLINGS)
    }),
    Aim::new(Flaw::Columns, column_count),
    Aim::new(Flaw::UniqueColumn, unique_column),
    Aim::new(Flaw::ConstraintSource, |random, lent| {
        let place = any_used(random, &lent.design, CONSTRAINTS)?;
        column_that_is_not_there(random, lent, place)
    }),
    Aim::new(Flaw::ConstraintTarget, |random, lent| {
        let place = any_used(random, &lent.design, CONSTRAINTS)?;
        column_that_is_not_there(random, lent, place + 2)
    }),
    Aim::new(Flaw::ConstraintTwice, constraint_twice),
    Aim::new(Flaw::FillingColumn, |random, lent| {
        let place = any_used(random, &lent.design, FILLINGS)?;
        column_that_is_not_there(random, lent, place)
    }),
    Aim::new(Flaw::FillingLow, |random, lent| {
        let place = any_used(random, &lent.design, FILLINGS)?;
        lent.design[place + 2] = 0;
        Some(())
    }),
    Aim::new(Flaw::FillingEmpty, filling_empty),
    Aim::new(Flaw::FillingTwice, filling_twice),
    Aim::new(Flaw::UnusedTable, |random, lent| {
        use_unused(random, &mut lent.design, TABLES)
    }),
    Aim::new(Flaw::UnusedConstraint, |random, lent| {
        use_unused(random, &mut lent.design, CONSTRAINTS)
    }),
    Aim::new(Flaw::UnusedFilling, |random, lent| {
        use_unused(random, &mut lent.design, FILLINGS)
    }),
    // The top of a column's candidates may be 2^32 - 1, which no sum may pass.
    Aim::new(Flaw::FillingEmpty, |random, lent| {
        let place = any_used(random, &lent.design, FILLINGS)?;
        lent.design[place + 2] = u32::MAX;
        lent.design[place + 3] = u32::MAX - 1;
        Some(())
    }),
];

/// A count, or any number of a table or column, or of columns.
fn byte(random: &mut Random, lent: &mut Lent) -> Option<()> {
    let mut places = vec![TABLES.count, CONSTRAINTS.count, FILLINGS.count];
    for (list, bytes) in [(TABLES, 2), (CONSTRAINTS, 4), (FILLINGS, 2)] {
        for number in 0..count(&lent.design, list) {
            places.extend(list.place(number).take(bytes));
        }
    }
    let place = *random.pick(&places);
    above_a_byte(random, &mut lent.design[place]);
    Some(())
}

fn many(random: &mut Random, lent: &mut Lent, list: List) -> Option<()> {
    lent.design[list.count] = around(random, list.most as u32 + 1..=255);
    Some(())
}

fn column_count(random: &mut Random, lent: &mut Lent) -> Option<()> {
    let place = any_used(random, &lent.design, TABLES)?;
    lent.design[place] = match random.below(3) {
        0 => 0,
        _ => around(random, 9..=255),
    };
    Some(())
}

fn unique_column(random: &mut Random, lent: &mut Lent) -> Option<()> {
    let place = any_used(random, &lent.design, TABLES)?;
    let columns = lent.design[place];
    if columns == 8 {
        return None;
    }
    lent.design[place + 1] |= 1 << around(random, columns..=7);
    Some(())
}

/// Changes the table or the column that stand at a place.
fn column_that_is_not_there(random: &mut Random, lent: &mut Lent, place: usize) -> Option<()> {
    if random.percent(50) {
        let tables = lent.design[TABLES.count];
        lent.design[place] = around(random, tables..=255);
    } else {
        let columns = columns(lent, lent.design[place] as u8);
        lent.design[place + 1] = around(random, columns as u32..=255);
    }
    Some(())
}

/// A constraint once more demands no more rows than before.
fn constraint_twice(random: &mut Random, lent: &mut Lent) -> Option<()> {
    let place = any_used(random, &lent.design, CONSTRAINTS)?;
    let constraint = lent.design[place..place + 4].to_vec();
    append(&mut lent.design, CONSTRAINTS, &constraint)
}

/// A filling whose last candidate stands before its first.
fn filling_empty(random: &mut Random, lent: &mut Lent) -> Option<()> {
    let place = any_used(random, &lent.design, FILLINGS)?;
    let (low, high) = (lent.design[place + 2], lent.design[place + 3]);
    match high.checked_add(1) {
        Some(above) if random.percent(50) => lent.design[place + 2] = above,
        _ => lent.design[place + 3] = low - 1,
    }
    Some(())
}

/// A second filling holds nothing, so that the cached rows stay the same.
fn filling_twice(random: &mut Random, lent: &mut Lent) -> Option<()> {
    let place = any_used(random, &lent.design, FILLINGS)?;
    let mut filling = lent.design[place..place + 4].to_vec();
    if random.percent(50) {
        filling[2..].copy_from_slice(&[1, u32::MAX]);
    }
    append(&mut lent.design, FILLINGS, &filling)
}
