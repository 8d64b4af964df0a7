//! Which ranges meet when one is held, and what comes of values that lie in one.

use reference::desk::Answer;
use reference::held::{Holding, MOST_RANGES};
use reference::refusal::Cause;
use reference::script::{Command, Pair, Probe, Range, Value};

use crate::replay::Replay;

/// The outcomes of the next command.
pub fn outcomes(replay: &Replay, command: &Command) -> Vec<&'static str> {
    match command {
        Command::Hold(range) => held(replay, command, *range),
        Command::Release(range) => released(replay, command, *range).into_iter().collect(),
        _ => on_a_value(replay, command).into_iter().collect(),
    }
}

/// What comes of a range to hold.
fn held(replay: &Replay, command: &Command, range: Range) -> Vec<&'static str> {
    match replay.try_out(command) {
        Ok(Answer::Loaded { rows, .. }) => {
            let mut outcomes = vec![match rows {
                0 => "range loaded without rows",
                _ => "range loaded with rows",
            }];
            outcomes.extend(joined(replay.held(), range));
            outcomes
        }
        Ok(Answer::Held) => vec!["range held"],
        Ok(Answer::NoCandidate) => vec!["range of no candidate"],
        Err(Cause::WrongOperand) => vec!["range refused 5"],
        Err(Cause::NoPlaceFree) => vec!["range refused 8"],
        _ => Vec::new(),
    }
}

/// What a range that is loaded meets.
fn joined(held: &Holding, range: Range) -> Vec<&'static str> {
    let own = &held.ranges[held.desk];
    let of_filling = own.iter().filter(|own| own.filling == range.filling);
    let overlaps = |own: &Range| own.low <= range.high && range.low <= own.high;
    let touches = |own: &Range| {
        let next = |high: u32| u64::from(high) + 1;
        next(own.high) == range.low.into() || next(range.high) == own.low.into()
    };
    let met: Vec<&Range> = of_filling
        .filter(|own| overlaps(own) || touches(own))
        .collect();
    let mut outcomes = Vec::new();
    if met.iter().any(|own| overlaps(own)) {
        outcomes.push("range that overlaps another");
    }
    if met.iter().any(|own| touches(own)) {
        outcomes.push("range that touches another");
    }
    if met.len() > 1 {
        outcomes.push("range that joins two others");
    }
    if !met.is_empty() && own.len() == MOST_RANGES {
        outcomes.push("range that joins others at 8");
    }
    let mut others = held.ranges.iter().flatten();
    let covers =
        |r: &Range| r.filling == range.filling && r.low <= range.low && range.high <= r.high;
    if others.any(covers) {
        outcomes.push("range of what another desk holds");
    }
    if range.high == u32::MAX {
        outcomes.push("range up to 2^32 - 1");
    }
    outcomes
}

/// What comes of a range to drop.
fn released(replay: &Replay, command: &Command, range: Range) -> Option<&'static str> {
    match replay.try_out(command) {
        Ok(Answer::Dropped { rows: 1.. }) => Some("range dropped with rows"),
        Err(Cause::WrongOperand) => Some("range refused 5"),
        Err(Cause::NotHeld) if replay.held().covers(range) => Some("range refused 10 for a part"),
        Err(Cause::NotHeld) => Some("range refused 10"),
        _ => None,
    }
}

/// What comes of a value in a range.
fn on_a_value(replay: &Replay, command: &Command) -> Option<&'static str> {
    let in_a_range = |pair: Pair| {
        let mut ranges = replay.held().ranges.iter().flatten();
        ranges.any(|range| range.has(pair))
    };
    match *command {
        Command::Refer(pair) if in_a_range(pair) => match replay.try_out(command) {
            Ok(Answer::Loaded { .. }) => Some("load of a value in a range"),
            _ => None,
        },
        Command::Drop(pair) if in_a_range(pair) => match replay.try_out(command) {
            Ok(_) => Some("drop of a value in a range"),
            Err(_) => Some("refused 10 for a value in a range"),
        },
        Command::Probe(Probe { column, value }) => {
            let mut fillings = replay.design().fillings.iter();
            let filling = fillings.position(|filling| filling.column == column)?;
            let without_issue = Value { issue: 0, ..value };
            let in_a_range = in_a_range(Pair {
                filling,
                value: without_issue,
            });
            let is_alone = !replay
                .held()
                .values
                .iter()
                .any(|owned| owned.pair.value == value);
            match replay.try_out(command) {
                Ok(Answer::Ground { ground: 1, .. }) if in_a_range && is_alone => {
                    Some("ground 1 by a range")
                }
                Ok(Answer::Sent) if in_a_range => Some("sent for the issue of a value in a range"),
                _ => None,
            }
        }
        _ => None,
    }
}

#[cfg(test)]
mod tests {
    use super::*;
    use notation::assemble;

    fn outcomes_of(operations: &str) -> Vec<&'static str> {
        let text = format!("table 1\nfilling 0.0 1..4294967295\nrow 0 5\nend\n{operations}");
        let script = assemble(&text).expect("a right text");
        let mut replay = Replay::new(&script).expect("an accepted design");
        let mut found = Vec::new();
        while let Some(command) = replay.command() {
            found.extend(outcomes(&replay, &command));
            replay.perform();
        }
        found
    }

    #[test]
    fn ranges_that_meet() {
        let operations = "hold 0 4..5\nhold 0 6..7\nhold 0 9..10\nhold 0 7..8\nhold 0 5..6\n\
            hold 0 4294967295..4294967295\nrelease 0 4..5\nrelease 0 4..10\nrelease 0 4..10\n\
            hold 0 0..1\ndesk 1\nhold 0 4294967295..4294967295\n";
        let expected = [
            "range loaded with rows",
            "range loaded without rows",
            "range that touches another",
            "range loaded without rows",
            "range loaded without rows",
            "range that overlaps another",
            "range that touches another",
            "range that joins two others",
            "range held",
            "range loaded without rows",
            "range up to 2^32 - 1",
            "range refused 10 for a part",
            "range dropped with rows",
            "range refused 10",
            "range refused 5",
            "range loaded without rows",
            "range of what another desk holds",
            "range up to 2^32 - 1",
        ];
        assert_eq!(outcomes_of(operations), expected);
    }

    #[test]
    fn as_many_ranges_as_there_can_be() {
        let eight: String = (1..=8)
            .map(|i| format!("hold 0 {0}..{0}\n", 10 * i))
            .collect();
        let found = outcomes_of(&format!("{eight}hold 0 90..90\nhold 0 81..90\n"));
        let expected = [
            "range refused 8",
            "range loaded without rows",
            "range that touches another",
            "range that joins others at 8",
        ];
        assert_eq!(found[8..], expected);
    }

    #[test]
    fn values_in_ranges() {
        let operations = "hold 0 4..6\nprobe 0.0 = 5\nprobe 0.0 = 5#1\ndrop 0 5\nrefer 0 5\n\
            probe 0.0 = 5\ndrop 0 5\nprobe 0.0 = 7\n";
        let expected = [
            "range loaded with rows",
            "ground 1 by a range",
            "sent for the issue of a value in a range",
            "refused 10 for a value in a range",
            "load of a value in a range",
            "drop of a value in a range",
        ];
        assert_eq!(outcomes_of(operations), expected);
    }
}
