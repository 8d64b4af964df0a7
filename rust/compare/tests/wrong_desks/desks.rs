//! Desks that are wrong about each other's held values.

use compare::level::Level;
use reference::desk::{Answer, Desk};
use reference::refusal::Cause;
use reference::script::{Command, Pair};

use crate::performing::is_found;

/// Whether a desk other than the named one holds the pair.
fn is_others(desk: &Desk, pair: Pair) -> bool {
    desk.held().holds(pair) && !desk.held().owns(pair)
}

/// On scripts in which no desk is named, and none is full, it is right.
#[test]
fn one_desk_for_all() {
    let perform = |_: &_, desk: &mut Desk, command: &_| match command {
        Command::Desk(number @ 0..=3) => Ok(Answer::Desk(*number)),
        _ => desk.perform(command),
    };
    assert!(is_found(Level::NOW, perform));
    assert!(!is_found(Level::before(7), perform));
}

#[test]
fn a_value_is_held_if_another_desk_holds_it() {
    assert!(is_found(Level::NOW, |_, desk, command| match command {
        Command::Refer(pair) if is_others(desk, *pair) => Ok(Answer::Held),
        _ => desk.perform(command),
    }));
}

#[test]
fn a_drop_drops_what_another_desk_holds() {
    assert!(is_found(Level::NOW, |_, desk, command| match command {
        Command::Drop(pair) if is_others(desk, *pair) => {
            let named = desk.held().desk;
            let owner = desk.held().values.iter().find(|owned| owned.pair == *pair);
            let owner = owner.map_or(named, |owned| owned.desk);
            let _ = desk.perform(&Command::Desk(owner));
            let answer = desk.perform(command);
            let _ = desk.perform(&Command::Desk(named));
            answer
        }
        _ => desk.perform(command),
    }));
}

#[test]
fn ground_1_by_the_named_desk_alone() {
    assert!(is_found(Level::NOW, |design, desk, command| {
        let answer = desk.perform(command);
        match (command, &answer) {
            (Command::Probe(probe), Ok(Answer::Ground { ground: 1, .. })) => {
                let mut fillings = design.fillings.iter();
                let filling = fillings.position(|filling| filling.column == probe.column);
                let value = probe.value;
                match filling.map(|filling| Pair { filling, value }) {
                    Some(pair) if is_others(desk, pair) => Ok(Answer::Sent),
                    _ => answer,
                }
            }
            _ => answer,
        }
    }));
}

#[test]
fn a_desk_that_takes_the_17th() {
    assert!(is_found(Level::NOW, |_, desk, command| {
        match desk.perform(command) {
            Err(Cause::NoPlaceFree) => Ok(Answer::Loaded { rows: 0, rounds: 0 }),
            answer => answer,
        }
    }));
}

#[test]
fn a_limit_of_16_for_all_desks_together() {
    assert!(is_found(Level::NOW, |_, desk, command| {
        let is_full = desk.held().values.len() >= 16;
        match (command, desk.clone().perform(command)) {
            (Command::Refer(_), Ok(Answer::Loaded { .. })) if is_full => Err(Cause::NoPlaceFree),
            _ => desk.perform(command),
        }
    }));
}

#[test]
fn desk_4_is_taken_for_desk_0() {
    assert!(is_found(Level::NOW, |_, desk, command| match command {
        Command::Desk(4) => {
            let _ = desk.perform(&Command::Desk(0));
            Err(Cause::WrongOperand)
        }
        _ => desk.perform(command),
    }));
}
