//! Desks that are wrong about ranges.

use compare::level::Level;
use reference::desk::{Answer, Desk};
use reference::refusal::Cause;
use reference::script::{Command, Pair, Range};

use crate::performing::is_found;

/// Whether a range of any desk has the pair.
fn in_a_range(desk: &Desk, pair: Pair) -> bool {
    let mut ranges = desk.held().ranges.iter().flatten();
    ranges.any(|range| range.has(pair))
}

#[test]
fn a_desk_that_does_not_join_what_touches() {
    assert!(is_found(Level::NOW, |_, desk, command| {
        if let Command::Release(range) = command {
            let own = &desk.held().ranges[desk.held().desk];
            if own.contains(range) && range.low < range.high {
                // As if it had been held in two parts.
                return Err(Cause::NotHeld);
            }
        }
        desk.perform(command)
    }));
}

#[test]
fn a_desk_that_drops_a_part_of_a_range() {
    assert!(is_found(Level::NOW, |_, desk, command| {
        let answer = desk.perform(command);
        match (command, &answer) {
            (Command::Release(range), Err(Cause::NotHeld)) if desk.held().covers(*range) => {
                Ok(Answer::Dropped { rows: 0 })
            }
            _ => answer,
        }
    }));
}

#[test]
fn a_desk_that_passes_over_the_issue_of_a_value_in_a_range() {
    assert!(is_found(Level::NOW, |_, desk, command| {
        if let Command::Probe(probe) = command {
            let mut plain = *probe;
            plain.value.issue = 0;
            let plain = desk.clone().perform(&Command::Probe(plain));
            if let (Ok(Answer::Ground { ground: 1, .. }), 1..) = (&plain, probe.value.issue) {
                return plain;
            }
        }
        desk.perform(command)
    }));
}

#[test]
fn a_desk_that_calls_a_value_in_a_range_held() {
    assert!(is_found(Level::NOW, |_, desk, command| match command {
        Command::Refer(pair) if in_a_range(desk, *pair) => Ok(Answer::Held),
        _ => desk.perform(command),
    }));
}

#[test]
fn a_desk_that_drops_a_value_out_of_a_range() {
    assert!(is_found(Level::NOW, |_, desk, command| {
        let answer = desk.perform(command);
        match (command, &answer) {
            (Command::Drop(pair), Err(Cause::NotHeld)) if in_a_range(desk, *pair) => {
                Ok(Answer::Dropped { rows: 0 })
            }
            _ => answer,
        }
    }));
}

#[test]
fn a_desk_that_refuses_a_ninth_range_before_it_joins() {
    assert!(is_found(Level::NOW, |_, desk, command| {
        let is_full = desk.held().ranges[desk.held().desk].len() == 8;
        match (command, desk.clone().perform(command)) {
            (Command::Hold(_), Ok(Answer::Loaded { .. })) if is_full => Err(Cause::NoPlaceFree),
            _ => desk.perform(command),
        }
    }));
}

#[test]
fn a_limit_of_8_for_all_desks_together() {
    assert!(is_found(Level::NOW, |_, desk, command| {
        let count = desk.held().ranges.iter().flatten().count();
        match (command, desk.clone().perform(command)) {
            (Command::Hold(_), Ok(Answer::Loaded { .. })) if count >= 8 => Err(Cause::NoPlaceFree),
            _ => desk.perform(command),
        }
    }));
}

#[test]
fn a_desk_that_takes_part_of_the_candidates() {
    assert!(is_found(
        Level::NOW,
        |design, desk, command| match command {
            Command::Hold(range @ Range { low: 1.., .. }) if range.low <= range.high => {
                let Some(filling) = design.fillings.get(range.filling) else {
                    return desk.perform(command);
                };
                let part = Range {
                    low: range.low.max(filling.low),
                    high: range.high.min(filling.high),
                    ..*range
                };
                match part.low <= part.high {
                    true => desk.perform(&Command::Hold(part)),
                    false => desk.perform(command),
                }
            }
            _ => desk.perform(command),
        }
    ));
}
