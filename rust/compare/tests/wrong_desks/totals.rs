//! Desks that are wrong about totals.

use compare::level::Level;
use reference::desk::Answer;
use reference::refusal::Cause;
use reference::script::{Command, Total};

use crate::performing::{has_ground, is_found, refer};

#[test]
fn a_desk_that_refuses_the_largest_total() {
    assert!(is_found(Level::NOW, |_, desk, command| {
        match desk.perform(command) {
            Ok(Answer::Total(u64::MAX)) => Err(Cause::TotalTooLarge),
            answer => answer,
        }
    }));
}

#[test]
fn a_desk_that_stops_at_the_largest_total() {
    assert!(is_found(Level::NOW, |_, desk, command| {
        match desk.perform(command) {
            Err(Cause::TotalTooLarge) => Ok(Answer::Total(u64::MAX)),
            answer => answer,
        }
    }));
}

#[test]
fn a_desk_that_keeps_the_reference_of_a_refused_total() {
    assert!(is_found(Level::NOW, |design, desk, command| {
        let answer = desk.perform(command);
        if let (Command::Total(total), Err(Cause::TotalTooLarge)) = (command, &answer) {
            refer(design, desk, &total.query);
        }
        answer
    }));
}

#[test]
fn a_desk_whose_totals_never_refer() {
    assert!(is_found(Level::NOW, |_, desk, command| match command {
        Command::Total(total) if !has_ground(desk, &total.query) => {
            let answer = desk.clone().perform(command);
            answer.map(|_| Answer::Sent)
        }
        _ => desk.perform(command),
    }));
}

#[test]
fn a_desk_that_refuses_totals_of_too_many_lists() {
    assert!(is_found(Level::NOW, |_, desk, command| {
        if let Command::Total(total) = command {
            let listed = desk.clone().perform(&Command::Query(total.query));
            if listed == Err(Cause::AnswerTooLong) {
                return Err(Cause::AnswerTooLong);
            }
        }
        desk.perform(command)
    }));
}

/// As far as the other position has such a column.
#[test]
fn a_desk_that_adds_the_cell_of_another_position() {
    assert!(is_found(Level::NOW, |_, desk, command| {
        if let Command::Total(total) = command {
            let position = total.query.joins.saturating_sub(total.position);
            let other = Command::Total(Total { position, ..*total });
            if desk.clone().perform(&other).is_ok() {
                return desk.perform(&other);
            }
        }
        desk.perform(command)
    }));
}

#[test]
fn a_desk_that_looks_at_value_0_before_position_and_column() {
    assert!(is_found(Level::NOW, |_, desk, command| {
        let answer = desk.perform(command);
        match (command, &answer) {
            (Command::Total(total), Err(Cause::WrongOperand)) => {
                match desk.clone().perform(&Command::Query(total.query)) {
                    Err(Cause::ValueZero) => Err(Cause::ValueZero),
                    _ => answer,
                }
            }
            _ => answer,
        }
    }));
}
