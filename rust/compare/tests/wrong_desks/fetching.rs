//! Desks that are wrong about queries which refer their value first.

use compare::level::Level;
use reference::design::Design;
use reference::desk::{Answer, Desk};
use reference::refusal::Cause;
use reference::script::Command;

use crate::performing::{has_ground, is_found, refer};

/// As a desk from before the request does: on scripts of its level it is right.
#[test]
fn a_desk_that_never_refers() {
    let perform = |_: &Design, desk: &mut Desk, command: &Command| match command {
        Command::Query(query) if !has_ground(desk, query) => {
            let answer = desk.clone().perform(command);
            let wrong_operands = matches!(answer, Err(Cause::WrongOperand | Cause::ValueZero));
            if wrong_operands {
                answer
            } else {
                Ok(Answer::Sent)
            }
        }
        _ => desk.perform(command),
    };
    assert!(is_found(Level::NOW, perform));
    assert!(!is_found(Level::before(2), perform));
}

#[test]
fn a_desk_that_keeps_the_reference_of_a_refused_query() {
    assert!(is_found(Level::NOW, |design, desk, command| {
        let answer = desk.perform(command);
        if let (Command::Query(query), Err(Cause::AnswerTooLong)) = (command, &answer) {
            refer(design, desk, query);
        }
        answer
    }));
}

#[test]
fn a_desk_that_refers_before_it_probes() {
    assert!(is_found(Level::NOW, |design, desk, command| {
        if let Command::Query(query) = command {
            let answer = desk.clone().perform(command);
            if matches!(answer, Ok(Answer::Lists(_))) {
                refer(design, desk, query);
            }
        }
        desk.perform(command)
    }));
}

#[test]
fn a_desk_that_forgets_what_a_query_referred() {
    assert!(is_found(Level::NOW, |_, desk, command| match command {
        Command::Query(query) if !has_ground(desk, query) => desk.clone().perform(command),
        _ => desk.perform(command),
    }));
}

#[test]
fn a_desk_that_lists_what_was_cached_before() {
    assert!(is_found(Level::NOW, |_, desk, command| match command {
        Command::Query(query) if !has_ground(desk, query) => {
            let answer = desk.perform(command)?;
            Ok(match answer {
                Answer::Lists(_) => Answer::Lists(Vec::new()),
                answer => answer,
            })
        }
        _ => desk.perform(command),
    }));
}
