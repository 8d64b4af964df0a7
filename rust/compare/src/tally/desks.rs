//! What one desk's operations meet of another's.

use reference::desk::Answer;
use reference::held::{Holding, DESKS, MOST_VALUES};
use reference::refusal::Cause;
use reference::script::{Command, Pair};

use crate::replay::{query_of, Replay};

/// The outcomes of the next command.
pub fn outcomes(replay: &Replay, command: &Command) -> Vec<&'static str> {
    let held = replay.held();
    let others = |pair: Pair| {
        let mut others = held.values.iter().filter(|owned| owned.desk != held.desk);
        others.any(|owned| owned.pair == pair)
    };
    let mut outcomes = Vec::new();
    match command {
        Command::Desk(_) if replay.try_out(command).is_err() => outcomes.push("desk refused 5"),
        Command::Refer(pair) => match replay.try_out(command) {
            Ok(Answer::Loaded { .. }) => {
                outcomes.extend(others(*pair).then_some("load of what another desk holds"));
                outcomes.extend(loaded_beside(held));
            }
            Err(Cause::NoPlaceFree) if has_room_elsewhere(held) => {
                outcomes.push("refused 8 while another desk has room");
            }
            _ => {}
        },
        Command::Drop(pair) if others(*pair) => match replay.try_out(command) {
            Ok(_) => outcomes.push("drop of what another desk holds too"),
            Err(_) => outcomes.push("refused 10 for what another desk holds"),
        },
        _ => outcomes.extend(asked(replay, command)),
    }
    outcomes
}

/// A query of a value that another desk holds and this one doesn't.
fn asked(replay: &Replay, command: &Command) -> Option<&'static str> {
    let query = query_of(command)?;
    let mut fillings = replay.design().fillings.iter();
    let filling = fillings.position(|filling| filling.column == query.column)?;
    let pair = Pair {
        filling,
        value: query.value,
    };
    let held = replay.held();
    let is_others = held.holds(pair) && !held.owns(pair);
    let is_answered = replay.try_out(command).is_ok();
    (is_others && is_answered).then_some("query or total of what another desk holds")
}

/// How many values each desk holds.
fn counts(held: &Holding) -> [usize; DESKS] {
    let mut counts = [0; DESKS];
    for owned in &held.values {
        counts[owned.desk] += 1;
    }
    counts
}

fn has_room_elsewhere(held: &Holding) -> bool {
    counts(held).iter().any(|&count| count < MOST_VALUES)
}

/// What a load shows by what else is held.
fn loaded_beside(held: &Holding) -> Option<&'static str> {
    if held.values.len() == DESKS * MOST_VALUES - 1 {
        return Some("load of the 64th value");
    }
    let is_full = counts(held).contains(&MOST_VALUES);
    is_full.then_some("load beside a full desk")
}

#[cfg(test)]
mod tests {
    use super::*;
    use notation::assemble;

    fn outcomes_of(operations: &str) -> Vec<&'static str> {
        let text = format!("table 1\nfilling 0.0 1..90\nrow 0 1\nend\n{operations}");
        let script = assemble(&text).expect("a right text");
        let mut replay = Replay::new(&script).expect("an accepted design");
        let mut found = Vec::new();
        while let Some(command) = replay.command() {
            found.extend(outcomes(&replay, &command));
            replay.perform();
        }
        found
    }

    #[test]
    fn desks_that_share_a_value() {
        let operations = "refer 0 1\ndesk 1\ndrop 0 1\nquery 0.0 = 1\nrefer 0 1\nquery 0.0 = 1\n\
            drop 0 1\ndesk 4\ndesk 0\ndrop 0 1\n";
        let expected = [
            "refused 10 for what another desk holds",
            "query or total of what another desk holds",
            "load of what another desk holds",
            "drop of what another desk holds too",
            "desk refused 5",
        ];
        assert_eq!(outcomes_of(operations), expected);
    }

    #[test]
    fn desks_that_are_full() {
        let loads = |first: u32| -> String {
            let values = first..first + 16;
            values.map(|value| format!("refer 0 {value}\n")).collect()
        };
        let first = loads(1) + "refer 0 70\n";
        assert_eq!(
            outcomes_of(&first),
            ["refused 8 while another desk has room"]
        );
        let all: Vec<String> = (0..4)
            .map(|desk| format!("desk {desk}\n{}", loads(1 + 16 * desk)))
            .collect();
        let found = outcomes_of(&(all.concat() + "refer 0 70\n"));
        let beside = "load beside a full desk";
        assert_eq!(found.iter().filter(|name| **name == beside).count(), 47);
        assert_eq!(found.last(), Some(&"load of the 64th value"));
    }
}
