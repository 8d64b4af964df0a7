//! Desks that are wrong about the rows behind a ground.

use compare::level::Level;
use reference::design::Design;
use reference::desk::Answer;
use reference::script::{Column, Command, Probe, Value};

use crate::performing::is_found;

/// Whether a desk is found that gives other rows behind the grounds of probes.
fn is_found_with(rows: impl Fn(&Design, Column, Value, u8, usize) -> (u8, usize) + Sync) -> bool {
    is_found(Level::NOW, |design, desk, command| {
        let answer = desk.perform(command);
        match (command, &answer) {
            (
                Command::Probe(Probe { column, value }),
                Ok(Answer::Ground {
                    ground,
                    rows: right,
                }),
            ) => {
                let (ground, rows) = rows(design, *column, *value, *ground, *right);
                Ok(Answer::Ground { ground, rows })
            }
            _ => answer,
        }
    })
}

/// How many rows have a value in a column.
fn rows_with(design: &Design, column: Column, value: Value) -> usize {
    let rows = 0..design.rows.len();
    rows.filter(|&row| design.equals(row, column, value))
        .count()
}

/// With a ground all rows that have the value are cached: so this one is right.
#[test]
fn a_desk_that_counts_uncached_rows_too() {
    let found = is_found_with(|design, column, value, ground, _| {
        (ground, rows_with(design, column, value))
    });
    assert!(!found);
}

#[test]
fn a_desk_that_counts_where_a_constraint_starts() {
    assert!(is_found_with(|design, column, value, ground, rows| {
        let mut ending = design.constraints.iter().filter(|c| c.target == column);
        match (ground, ending.next()) {
            (2, Some(constraint)) => (ground, rows_with(design, constraint.source, value)),
            _ => (ground, rows),
        }
    }));
}

#[test]
fn a_desk_that_exchanges_the_two_numbers() {
    let exchanged = |ground, rows| (rows as u8, usize::from(ground));
    assert!(is_found_with(|_, _, _, ground, rows| exchanged(
        ground, rows
    )));
}

#[test]
fn a_desk_that_counts_in_a_byte() {
    assert!(is_found_with(|_, _, _, ground, rows| (ground, rows % 256)));
}

#[test]
fn a_desk_that_counts_one_row_behind_ground_1_at_most() {
    assert!(is_found_with(|_, _, _, ground, rows| match ground {
        1 => (ground, rows.min(1)),
        _ => (ground, rows),
    }));
}
