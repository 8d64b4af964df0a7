//! What comes of rows that come and go.

use reference::design::Design;
use reference::desk::Answer;
use reference::held::{Holding, DESKS};
use reference::refusal::Cause;
use reference::script::{Column, Command, Row, Value, BLANK, CELLS};

use crate::replay::Replay;

/// The largest number of a row.
const LAST: usize = 511;

/// So many rows that come or go in one script are many.
const MANY: usize = 200;

/// The rows that have gone by now, and how many have come or gone.
#[derive(Default)]
pub struct Watch {
    gone: Vec<(usize, Row)>,
    moved: usize,
}

impl Watch {
    /// The outcomes of the next command.
    pub fn outcomes(&mut self, replay: &Replay, command: &Command) -> Vec<&'static str> {
        let design = replay.design();
        match command {
            Command::Put { number, row } => self.put(replay, command, *number, row),
            Command::Take(number) => self.take(replay, command, *number),
            Command::Reason(number) if !design.has_row(*number) => {
                let was_there = self.gone.iter().any(|(gone, _)| gone == number);
                let outcome = was_there.then_some("reason refused 5 for a row that went");
                outcome.into_iter().collect()
            }
            _ => Vec::new(),
        }
    }

    fn take(&mut self, replay: &Replay, command: &Command, number: usize) -> Vec<&'static str> {
        let Ok(answer) = replay.try_out(command) else {
            return vec![match number {
                512 => "take refused 5 for number 512",
                65_535 => "take refused 5 for number 65,535",
                _ => "take refused 5 for a free number",
            }];
        };
        let row = replay.design().rows[number].expect("a row that can go");
        self.gone.push((number, row));
        let mut outcomes = taken(&answer);
        outcomes.extend(self.count());
        outcomes
    }

    fn put(
        &mut self,
        replay: &Replay,
        command: &Command,
        number: usize,
        row: &Row,
    ) -> Vec<&'static str> {
        let design = replay.design();
        match replay.try_out_both(command, &Command::Reason(number)) {
            (Ok(answer), reason) => {
                let mut outcomes = came(&answer);
                outcomes.extend(reason.ok().and_then(|reason| wanted(&reason)));
                outcomes.extend(self.at_number(design, number, row));
                if desks_that_hold(replay.held()) == DESKS {
                    outcomes.push("row put in while four desks hold something");
                }
                outcomes.extend(self.count());
                outcomes
            }
            (Err(Cause::ValueTwice), _) => {
                let mut outcomes = vec!["put refused 6"];
                if is_repeated_behind(design, number, row) {
                    outcomes.push("put refused 6 for a row behind it");
                }
                outcomes
            }
            (Err(_), _) => refused(design, number, row).into_iter().collect(),
        }
    }

    /// Counts one more row that has come or gone.
    fn count(&mut self) -> Option<&'static str> {
        self.moved += 1;
        (self.moved == MANY).then_some("200 rows put in or taken out")
    }

    /// What is to be said of a row that comes, its number and its cells.
    fn at_number(&self, design: &Design, number: usize, row: &Row) -> Vec<&'static str> {
        let mut outcomes = Vec::new();
        if row.cells.iter().any(|cell| cell.issue != 0) {
            outcomes.push("row put in with an issue");
        }
        if number == LAST {
            outcomes.push("row put in at number 511");
        }
        if number > design.rows.len() {
            outcomes.push("row put in past a gap");
        }
        if self.gone.iter().any(|(gone, _)| *gone == number) {
            outcomes.push("row put in at a number used before");
        }
        let mut gone = self.gone.iter();
        if gone.any(|(_, gone)| shares_unique(design, gone, row)) {
            outcomes.push("row put in with a value of one that went");
        }
        outcomes
    }
}

/// What comes with a row.
fn came(answer: &Answer) -> Vec<&'static str> {
    match answer {
        Answer::Rows { came: 256.., .. } => {
            vec!["over 255 rows came", "row put in, which brings others"]
        }
        Answer::Rows { came: 2.., .. } => vec!["row put in, which brings others"],
        _ => Vec::new(),
    }
}

/// What a row that has come is cached for, by the reason for it.
fn wanted(reason: &Answer) -> Option<&'static str> {
    let Answer::Reason(sentence) = reason else {
        return Some("row put in, uncached");
    };
    match sentence.split(' ').nth(3) {
        Some("value") => Some("row put in for a held value"),
        Some("range") => Some("row put in for a range"),
        _ => Some("row put in for a row"),
    }
}

/// What goes with a row.
fn taken(answer: &Answer) -> Vec<&'static str> {
    match answer {
        Answer::Rows { went: 256.., .. } => {
            vec!["over 255 rows went", "row taken out with others"]
        }
        Answer::Rows { went: 2.., .. } => vec!["row taken out with others"],
        Answer::Rows { went: 0, .. } => vec!["row taken out, uncached"],
        _ => Vec::new(),
    }
}

/// By which operand a row is refused with 5. Other numbers above 511 aren't told apart.
fn refused(design: &Design, number: usize, row: &Row) -> Option<&'static str> {
    let is_blank = |cell: &Value| cell.number == 0 && cell.issue != 0;
    match number {
        512 => Some("put refused 5 for number 512"),
        65_535 => Some("put refused 5 for number 65,535"),
        _ if number > LAST => None,
        _ if design.has_row(number) => Some("put refused 5 for a taken number"),
        _ if row.table >= design.tables.len() => Some("put refused 5 for its table"),
        _ if row.cells.iter().any(is_blank) => Some("put refused 5 for the issue of a blank"),
        _ => Some("put refused 5 for a cell past the columns"),
    }
}

/// How many desks hold a value or a range.
fn desks_that_hold(held: &Holding) -> usize {
    let holds_a_value = |desk| held.values.iter().any(|owned| owned.desk == desk);
    let holds = |&desk: &usize| holds_a_value(desk) || !held.ranges[desk].is_empty();
    (0..DESKS).filter(holds).count()
}

/// Whether a row with a higher number has a value of the row in a unique column.
fn is_repeated_behind(design: &Design, number: usize, row: &Row) -> bool {
    let behind = design.rows.iter().skip(number).flatten();
    let mut behind = behind.filter(|other| shares_unique(design, other, row));
    behind.next().is_some()
}

/// Whether two rows of one table have a value in a unique column both.
fn shares_unique(design: &Design, one: &Row, other: &Row) -> bool {
    let table = one.table;
    one.table == other.table
        && (0..CELLS).any(|column| {
            one.cells[column] != BLANK
                && one.cells[column] == other.cells[column]
                && design.is_unique(Column { table, column })
        })
}

#[cfg(test)]
mod tests {
    use super::*;
    use notation::assemble;

    #[test]
    fn rows_that_come_and_go() {
        let text = "table 2 unique 0\nconstraint 0.1 -> 0.0\nfilling 0.0 1..9\nrow 0 1 2\n\
            row 0 3 -\nend\nrefer 0 1\nput 2 0 2 3\ntake 2\nput 2 0 2 4\nput 511 0 7#1 -\n\
            put 3 0 7#1 -\nput 3 0 1 -\nput 3 0 - - 1\nput 3 1 8\nput 3 0 -#1 -\nput 2 0 8 -\n\
            put 512 0 8 -\nput 65535 0 8 -\ntake 1\ntake 1\ntake 512\ntake 65535\n\
            reason 1\nreason 4\ndesk 1\nhold 0 3..4\ndesk 2\nrefer 0 8\ndesk 3\n\
            refer 0 9\nput 9 0 3 -\nput 10 0 8 -\n";
        let script = assemble(text).expect("a right text");
        let mut replay = Replay::new(&script).expect("an accepted design");
        let mut watch = Watch::default();
        let mut found = Vec::new();
        while let Some(command) = replay.command() {
            found.extend(watch.outcomes(&replay, &command));
            replay.perform();
        }
        let expected = [
            "row put in, which brings others",
            "row put in for a row",
            "row taken out with others",
            "row put in for a row",
            "row put in at a number used before",
            "row put in with a value of one that went",
            "row put in, uncached",
            "row put in with an issue",
            "row put in at number 511",
            "row put in past a gap",
            "put refused 6",
            "put refused 6 for a row behind it",
            "put refused 6",
            "put refused 5 for a cell past the columns",
            "put refused 5 for its table",
            "put refused 5 for the issue of a blank",
            "put refused 5 for a taken number",
            "put refused 5 for number 512",
            "put refused 5 for number 65,535",
            "row taken out, uncached",
            "take refused 5 for a free number",
            "take refused 5 for number 512",
            "take refused 5 for number 65,535",
            "reason refused 5 for a row that went",
            "row put in for a range",
            "row put in with a value of one that went",
            "row put in while four desks hold something",
            "row put in for a held value",
            "row put in while four desks hold something",
        ];
        assert_eq!(found, expected);
    }
}
