//! Desks that are wrong about issues.

use compare::level::Level;
use reference::desk::{Answer, Desk};
use reference::refusal::Cause;
use reference::script::{Command, Value};

use crate::performing::is_found;

/// The value that a command names.
fn value_of(command: &mut Command) -> Option<&mut Value> {
    match command {
        Command::Refer(pair) | Command::Drop(pair) => Some(&mut pair.value),
        Command::Probe(probe) => Some(&mut probe.value),
        Command::Query(query) => Some(&mut query.value),
        Command::Total(total) => Some(&mut total.query.value),
        _ => None,
    }
}

/// The command with another issue.
fn with_issue(command: &Command, issue: impl Fn(u8) -> u8) -> Command {
    let mut command = *command;
    if let Some(value) = value_of(&mut command) {
        value.issue = issue(value.issue);
    }
    command
}

fn has_issue(command: &Command) -> bool {
    value_of(&mut command.clone()).is_some_and(|value| value.issue != 0)
}

/// On scripts without issues it is right.
#[test]
fn a_desk_that_passes_over_issues() {
    let perform = |_: &_, desk: &mut Desk, command: &_| desk.perform(&with_issue(command, |_| 0));
    assert!(is_found(Level::NOW, perform));
    assert!(!is_found(Level::before(6), perform));
}

#[test]
fn a_desk_that_keeps_a_bit_less_of_issues() {
    assert!(is_found(Level::NOW, |_, desk, command| {
        desk.perform(&with_issue(command, |issue| issue & 0x7f))
    }));
}

#[test]
fn a_desk_that_drops_another_issue() {
    assert!(is_found(Level::NOW, |_, desk, command| {
        let answer = desk.perform(command);
        match (command, &answer) {
            (Command::Drop(_), Err(Cause::NotHeld)) => desk.perform(&with_issue(command, |_| 0)),
            _ => answer,
        }
    }));
}

#[test]
fn a_desk_that_refuses_value_0_only_if_it_is_blank() {
    assert!(is_found(Level::NOW, |_, desk, command| {
        match desk.perform(command) {
            Err(Cause::ValueZero) if has_issue(command) => Ok(Answer::Sent),
            answer => answer,
        }
    }));
}

#[test]
fn a_desk_that_takes_no_issue_for_a_candidate() {
    assert!(is_found(Level::NOW, |_, desk, command| match command {
        Command::Refer(_) if has_issue(command) => {
            let answer = desk.clone().perform(command);
            answer.map(|_| Answer::NoCandidate)
        }
        _ => desk.perform(command),
    }));
}
