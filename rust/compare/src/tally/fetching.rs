//! What came of queries and totals that have no ground, or refer their value
//! first, and of operations on such a value afterwards.

use reference::design::Design;
use reference::desk::Answer;
use reference::held::Owned;
use reference::refusal::Cause;
use reference::script::{Column, Command, Pair, Value};

use crate::replay::{query_of, Replay};

/// A script on its way.
#[derive(Default)]
pub struct Watch {
    /// The held values that a query or total referred.
    asked: Vec<Owned>,
    /// The values whose reference was undone last, and which aren't held.
    undone: Vec<Owned>,
}

impl Watch {
    /// What comes of the next command, which is carried out.
    pub fn perform(&mut self, replay: &mut Replay, command: &Command) -> Option<&'static str> {
        let (ground, fetches) = (replay.ground(), replay.fetches());
        let answer = replay.perform()?;
        let desk = replay.held().desk;
        if let Some(query) = query_of(command) {
            let pair = pair(replay.design(), query.column, query.value);
            let is_total = matches!(command, Command::Total(_));
            let is_candidate = pair.is_some_and(|pair| is_candidate(replay.design(), pair));
            return match (&answer, pair) {
                (_, Some(pair)) if fetches => {
                    let is_last = !replay.held().has_room();
                    Some(self.fetch(Owned { desk, pair }, &answer, is_last))
                }
                (Ok(Answer::Sent), pair) => Some(sent(pair.is_some(), is_candidate, is_total)),
                (Ok(_), Some(_)) if matches!(ground, Some(2 | 3)) => {
                    is_candidate.then_some(match is_total {
                        false => "query of a candidate by ground 2 or 3",
                        true => "total of a candidate by ground 2 or 3",
                    })
                }
                _ => None,
            };
        }
        match (*command, answer) {
            (Command::Refer(pair), Ok(answer)) => self.refer(Owned { desk, pair }, &answer),
            (Command::Drop(pair), Ok(_)) => {
                let owned = Owned { desk, pair };
                let place = self.asked.iter().position(|asked| *asked == owned)?;
                self.asked.remove(place);
                Some("drop of what a query or total referred")
            }
            _ => None,
        }
    }

    fn refer(&mut self, owned: Owned, answer: &Answer) -> Option<&'static str> {
        match answer {
            Answer::Loaded { .. } => {
                let undone = self.undone.contains(&owned);
                self.undone.retain(|other| *other != owned);
                undone.then_some("load behind an undone reference")
            }
            Answer::Held if self.asked.contains(&owned) => Some("held since a query or total"),
            _ => None,
        }
    }

    /// What came of a query or total that referred the value first. It may have
    /// taken the last place of its desk.
    fn fetch(
        &mut self,
        owned: Owned,
        answer: &Result<Answer, Cause>,
        is_last: bool,
    ) -> &'static str {
        self.undone.retain(|other| *other != owned);
        let Ok(answer) = answer else {
            self.undone.push(owned);
            return match answer {
                Err(Cause::TotalTooLarge) => "total refused 13, its reference undone",
                _ => "query refused 11, its reference undone",
            };
        };
        self.asked.push(owned);
        match answer {
            Answer::Total(_) if is_last => "total referred at 15 held values",
            Answer::Total(_) => "total referred",
            _ if is_last => "query referred at 15 held values",
            Answer::Lists(lists) if lists.is_empty() => "query referred without lists",
            _ => "query referred with lists",
        }
    }
}

/// Why a query or total was sent.
fn sent(has_filling: bool, is_candidate: bool, is_total: bool) -> &'static str {
    match (has_filling, is_candidate, is_total) {
        (false, _, false) => "query sent for no filling",
        (false, _, true) => "total sent for no filling",
        (true, false, false) => "query sent for no candidate",
        (true, false, true) => "total sent for no candidate",
        (true, true, false) => "query sent at 16 held values",
        (true, true, true) => "total sent at 16 held values",
    }
}

/// The filling of a column, with the value.
fn pair(design: &Design, column: Column, value: Value) -> Option<Pair> {
    let mut fillings = design.fillings.iter();
    let filling = fillings.position(|filling| filling.column == column)?;
    Some(Pair { filling, value })
}

fn is_candidate(design: &Design, pair: Pair) -> bool {
    let filling = design.fillings[pair.filling];
    (filling.low..=filling.high).contains(&pair.value.number)
}

#[cfg(test)]
mod tests {
    use super::*;
    use notation::assemble;

    const DESIGN: &str = "table 2 unique 1\ntable 1\nconstraint 0.0 -> 1.0\n\
        filling 0.0 1..90\nfilling 0.1 1..9\nrow 0 1 7\nrow 1 1\nend\n";

    /// The outcomes of operations on a design.
    fn outcomes_of(operations: &str) -> Vec<&'static str> {
        outcomes_in(&format!("{DESIGN}{operations}"))
    }

    /// The outcomes of a script, without those that are told elsewhere.
    fn outcomes_in(text: &str) -> Vec<&'static str> {
        let script = assemble(text).expect("a right text");
        let mut replay = Replay::new(&script).expect("an accepted design");
        let mut watch = Watch::default();
        let mut outcomes = Vec::new();
        while let Some(command) = replay.command() {
            outcomes.extend(watch.perform(&mut replay, &command));
        }
        outcomes
    }

    #[test]
    fn queries_that_refer_and_what_follows_them() {
        let operations = "query 0.0 = 1 join 0 by 0\nrefer 0 1\ndrop 0 1\nquery 0.0 = 2\n\
            refer 0 1\nrefer 0 1\nquery 0.0 = 1\nquery 0.1 = 7\nquery 1.0 = 1\ndrop 0 1\n";
        let expected = [
            "query referred with lists",
            "held since a query or total",
            "drop of what a query or total referred",
            "query referred without lists",
            "query of a candidate by ground 2 or 3",
        ];
        assert_eq!(outcomes_of(operations), expected);
    }

    #[test]
    fn totals_are_told_apart() {
        let total = |value, cell| format!("total 0.0 = {value} join 0 by 0 of {cell}\n");
        let operations = [
            total(1, "1 column 0"),
            "drop 0 1\n".into(),
            total(91, "0 column 0"),
            "total 1.0 = 1 of 0 column 0\n".into(),
        ];
        let expected = [
            "total referred",
            "drop of what a query or total referred",
            "total sent for no candidate",
            "total sent for no filling",
        ];
        assert_eq!(outcomes_of(&operations.concat()), expected);
    }

    #[test]
    fn totals_that_are_undone() {
        let rows = "row 0 1 4294967295\n".repeat(512);
        let joins = " join 0 by 0 join 1 by 0 join 2 by 0 join 3 by 0 of 0 column 1";
        let text = format!(
            "table 2\nconstraint 0.0 -> 0.0\nfilling 0.0 1..9\n{rows}end\n\
             total 0.0 = 1{joins}\nrefer 0 1\ntotal 0.0 = 1{joins}\n"
        );
        let expected = [
            "total refused 13, its reference undone",
            "load behind an undone reference",
        ];
        assert_eq!(outcomes_in(&text), expected);
    }

    #[test]
    fn queries_that_are_sent() {
        let held: String = (1..=16).map(|value| format!("refer 0 {value}\n")).collect();
        let operations = format!("query 1.0 = 1\nquery 0.0 = 91\n{held}query 0.0 = 17\n");
        let expected = [
            "query sent for no filling",
            "query sent for no candidate",
            "query sent at 16 held values",
        ];
        assert_eq!(outcomes_of(&operations), expected);
    }

    #[test]
    fn the_last_place_is_told_apart() {
        let held: String = (1..=15).map(|value| format!("refer 0 {value}\n")).collect();
        let expected = ["query referred at 15 held values"];
        assert_eq!(outcomes_of(&format!("{held}query 0.0 = 16\n")), expected);
    }

    #[test]
    fn references_that_are_undone() {
        let rows = "row 0 1\n".repeat(50) + &"row 1 1\n".repeat(41);
        let design = "table 1\ntable 1\nconstraint 0.0 -> 1.0\nfilling 0.0 1..9\n";
        let query = "query 0.0 = 1 join 0 by 0\n";
        let text = format!("{design}{rows}end\n{query}{query}refer 0 1\n{query}drop 0 1\n");
        let expected = [
            "query refused 11, its reference undone",
            "query refused 11, its reference undone",
            "load behind an undone reference",
        ];
        assert_eq!(outcomes_in(&text), expected);
    }
}
