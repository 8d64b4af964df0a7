//! Which loads would open a probe, and how.

use reference::desk::Answer;
use reference::refusal::Cause;
use reference::script::{Command, Pair, Probe};

use crate::replay::Replay;

/// The outcomes of the next command, if it asks for an opener.
pub fn outcomes(replay: &Replay, command: &Command) -> Vec<&'static str> {
    let Command::Opener(probe) = command else {
        return Vec::new();
    };
    match replay.try_out(command) {
        Ok(Answer::Opener(pair)) => opened(replay, *probe, pair),
        Err(Cause::WrongOperand) => vec!["opener refused 5"],
        Err(Cause::ValueZero) => vec!["opener refused 9"],
        _ => Vec::new(),
    }
}

/// What the opener of a probe shows.
fn opened(replay: &Replay, probe: Probe, pair: Pair) -> Vec<&'static str> {
    let column = replay.design().fillings[pair.filling].column;
    let mut outcomes = vec![match column == probe.column {
        true if pair.value == probe.value => "opener of the probed value",
        true => "opener of a lower value in the probed column",
        false => "opener of another column",
    }];
    if pair.filling > 0 {
        outcomes.push("opener of a later filling");
    }
    if pair.value.issue != 0 {
        outcomes.push("opener with an issue");
    }
    if !replay.held().has_room() {
        outcomes.push("opener of a full desk");
        return outcomes;
    }
    let (loaded, probed) = replay.try_out_both(&Command::Refer(pair), &Command::Probe(probe));
    if matches!(loaded, Ok(Answer::Loaded { rounds: 2.., .. })) && pair.value != probe.value {
        outcomes.push("opener through three rows or more");
    }
    match probed {
        Ok(Answer::Ground { ground: 2, .. }) => outcomes.push("opener by ground 2"),
        Ok(Answer::Ground { ground: 3, .. }) => outcomes.push("opener by ground 3"),
        _ => {}
    }
    outcomes
}

#[cfg(test)]
mod tests {
    use super::*;
    use notation::assemble;

    #[test]
    fn openers_of_all_kinds() {
        let text = "table 2 unique 0\ntable 1\nconstraint 0.1 -> 1.0\nconstraint 1.0 -> 0.0\n\
            filling 0.0 1..3\nfilling 1.0 1..90\nrow 0 2 5#1\nrow 0 5#1 9\nrow 1 5#1\nend\n";
        let loads: String = (41..57).map(|value| format!("refer 1 {value}\n")).collect();
        let operations = "opener 0.0 = 3\nopener 1.0 = 5#1\nopener 1.0 = 9\nopener 1.0 = 4\n\
            opener 0.0 = 5#1\nopener 2.0 = 1\nopener 0.0 = 0\n";
        let text = format!("{text}{operations}{loads}opener 1.0 = 4\n");
        let script = assemble(&text).expect("a right text");
        let mut replay = Replay::new(&script).expect("an accepted design");
        let mut found = Vec::new();
        while let Some(command) = replay.command() {
            found.push(outcomes(&replay, &command));
            replay.perform();
        }
        found.retain(|outcomes| !outcomes.is_empty());
        let expected = [
            vec!["opener of the probed value"],
            vec![
                "opener of another column",
                "opener through three rows or more",
                "opener by ground 2",
            ],
            vec![
                "opener of another column",
                "opener through three rows or more",
                "opener by ground 2",
            ],
            vec!["opener of the probed value", "opener of a later filling"],
            vec![
                "opener of a lower value in the probed column",
                "opener through three rows or more",
                "opener by ground 2",
            ],
            vec!["opener refused 5"],
            vec!["opener refused 9"],
            vec![
                "opener of the probed value",
                "opener of a later filling",
                "opener of a full desk",
            ],
        ];
        assert_eq!(found, expected);
    }
}
