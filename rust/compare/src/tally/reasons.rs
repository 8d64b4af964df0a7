//! How long the chains of reasons are, and what there was to choose among.

use reference::desk::Answer;
use reference::reason::Held;
use reference::refusal::Cause;
use reference::script::{Command, Pair};

use crate::replay::Replay;

/// The outcomes of the next command, if it asks for a reason.
pub fn outcomes(replay: &Replay, command: &Command) -> Vec<&'static str> {
    let Command::Reason(row) = command else {
        return Vec::new();
    };
    match replay.try_out(command) {
        Ok(Answer::Reason(sentence)) => {
            let mut outcomes = told(&sentence);
            outcomes.extend(choices(replay, *row));
            outcomes
        }
        Err(Cause::WrongOperand) => vec!["reason refused 5"],
        _ => Vec::new(),
    }
}

/// What a sentence shows.
fn told(sentence: &str) -> Vec<&'static str> {
    let mut outcomes = Vec::new();
    match sentence.matches(" by constraint ").count() {
        256.. => outcomes.push("reason of over 255 links"),
        3.. => outcomes.push("reason of three links or more"),
        _ => {}
    }
    if sentence.contains(" issue ") {
        outcomes.push("reason with an issue");
    }
    outcomes
}

/// What other chains of the same length there are, by the last link of a chain: other
/// constraints, other rows by the same one; or other values.
fn choices(replay: &Replay, row: usize) -> Vec<&'static str> {
    let (desk, design) = (replay.desk(), replay.design());
    let distances = desk.distances();
    let mut outcomes = Vec::new();
    let Some(before) = distances[row].and_then(|distance| distance.checked_sub(1)) else {
        let mut held = desk.held_of(row);
        held.sort_unstable();
        held.dedup();
        if held.len() > 1 {
            outcomes.push("reason with a choice of values");
        }
        let is_lowest = |pair: &Pair| held.first() == Some(&Held::value(*pair));
        let lowest = design.pairs_of(row).find(is_lowest);
        let mut ranges = replay.held().ranges.iter().flatten();
        if lowest.is_some_and(|pair| ranges.any(|range| range.has(pair))) {
            outcomes.push("reason by a value beside a range");
        }
        if lowest.is_some_and(|pair| !replay.held().owns(pair)) {
            outcomes.push("reason by another desk's value");
        }
        return outcomes;
    };
    let sources = |constraint| {
        let rows = (0..distances.len()).filter(|&source| {
            distances[source] == Some(before) && design.demands(constraint, source, row)
        });
        rows.count()
    };
    let counts = design
        .constraints
        .iter()
        .map(|&constraint| sources(constraint));
    let counts: Vec<usize> = counts.filter(|&count| count > 0).collect();
    if counts.len() > 1 {
        outcomes.push("reason with a choice of constraints");
    }
    if counts.first() > Some(&1) {
        outcomes.push("reason with a choice of rows");
    }
    outcomes
}

#[cfg(test)]
mod tests {
    use super::*;
    use notation::assemble;

    #[test]
    fn choices_are_told_apart() {
        let text = "table 2\ntable 1\nconstraint 0.1 -> 1.0\nconstraint 0.0 -> 1.0\n\
            filling 0.0 1..9\nfilling 0.1 1..9\nrow 0 5#1 4\nrow 0 4 4\nrow 1 4\nrow 1 5#1\n\
            end\nrefer 0 5#1\nreason 0\nreason 2\nreason 3\nrefer 0 4\nreason 2\n\
            desk 1\nrefer 1 4\nreason 1\nreason 0\nreason 4\n";
        let script = assemble(text).expect("a right text");
        let mut replay = Replay::new(&script).expect("an accepted design");
        let mut found = Vec::new();
        while let Some(command) = replay.command() {
            if matches!(command, Command::Reason(_)) {
                found.push(outcomes(&replay, &command));
            }
            replay.perform();
        }
        let expected = [
            vec!["reason with an issue"],
            vec!["reason with an issue"],
            vec!["reason with an issue"],
            vec![
                "reason with an issue",
                "reason with a choice of constraints",
                "reason with a choice of rows",
            ],
            vec![
                "reason with a choice of values",
                "reason by another desk's value",
            ],
            vec![
                "reason with an issue",
                "reason with a choice of values",
                "reason by another desk's value",
            ],
            vec!["reason refused 5"],
        ];
        assert_eq!(found, expected);
    }

    #[test]
    fn links_are_counted() {
        let sentence = |links| " by constraint 0 from row 1".repeat(links);
        assert_eq!(told(&sentence(2)), [""; 0]);
        assert_eq!(told(&sentence(3)), ["reason of three links or more"]);
        assert_eq!(told(&sentence(255)), ["reason of three links or more"]);
        assert_eq!(told(&sentence(256)), ["reason of over 255 links"]);
    }
}
