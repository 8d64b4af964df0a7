//! Desks that are wrong about the reason for a row.

use compare::level::Level;
use reference::design::Design;
use reference::desk::{Answer, Desk};
use reference::script::Command;

use crate::performing::is_found;

/// Whether a desk is found that gives another sentence on a row.
fn is_found_with(sentence: impl Fn(&Design, &Desk, usize, String) -> String + Sync) -> bool {
    is_found(Level::NOW, |design, desk, command| {
        match (command, desk.perform(command)) {
            (Command::Reason(row), Ok(Answer::Reason(right))) => {
                Ok(Answer::Reason(sentence(design, desk, *row, right)))
            }
            (_, answer) => answer,
        }
    })
}

/// The sentence whose last link is the first of those that are shortest, in an order.
fn by_order(
    design: &Design,
    desk: &Desk,
    row: usize,
    right: String,
    order: impl Fn(usize, usize) -> (usize, usize),
) -> String {
    let distances = desk.distances();
    let Some(before) = distances[row].and_then(|distance| distance.checked_sub(1)) else {
        return right;
    };
    let mut links = Vec::new();
    for (number, &constraint) in design.constraints.iter().enumerate() {
        for (source, distance) in distances.iter().enumerate() {
            if *distance == Some(before) && design.demands(constraint, source, row) {
                links.push((number, source));
            }
        }
    }
    let first = links.into_iter().min_by_key(|&(n, s)| order(n, s));
    let (number, source) = first.expect("a link");
    match desk.clone().perform(&Command::Reason(source)) {
        Ok(Answer::Reason(rest)) => format!("row {row} by constraint {number} from {rest}"),
        _ => right,
    }
}

#[test]
fn a_desk_that_takes_the_lowest_row_before_the_lowest_constraint() {
    assert!(is_found_with(|design, desk, row, right| {
        by_order(design, desk, row, right, |constraint, source| {
            (source, constraint)
        })
    }));
}

#[test]
fn a_desk_that_takes_the_highest_row() {
    assert!(is_found_with(|design, desk, row, right| {
        by_order(design, desk, row, right, |constraint, source| {
            (constraint, usize::MAX - source)
        })
    }));
}

/// The helper by itself is right.
#[test]
fn a_desk_that_takes_the_right_order() {
    assert!(!is_found_with(|design, desk, row, right| {
        by_order(design, desk, row, right, |constraint, source| {
            (constraint, source)
        })
    }));
}

#[test]
fn a_desk_that_prints_no_issue() {
    assert!(is_found_with(|_, _, _, right| {
        let mut words: Vec<&str> = right.split(' ').collect();
        if let Some(place) = words.iter().position(|word| *word == "issue") {
            words.drain(place..place + 2);
        }
        words.join(" ")
    }));
}

#[test]
fn a_desk_that_takes_the_value_that_was_referred_first() {
    assert!(is_found_with(|design, desk, row, right| {
        let of_row = |pair| design.pairs_of(row).any(|other| other == pair);
        let mut held = desk.held().values.iter().map(|owned| owned.pair);
        match held.find(|&pair| of_row(pair)) {
            Some(pair) if pair.value.issue == 0 => {
                let (value, filling) = (pair.value.number, pair.filling);
                format!("row {row} by value {value} of filling {filling}")
            }
            _ => right,
        }
    }));
}

#[test]
fn a_desk_that_gives_a_reason_for_rows_that_are_not_cached() {
    assert!(is_found(Level::NOW, |_, desk, command| {
        match (command, desk.perform(command)) {
            (Command::Reason(row), Ok(Answer::Absent)) => Ok(Answer::Reason(format!("row {row}"))),
            (_, answer) => answer,
        }
    }));
}
