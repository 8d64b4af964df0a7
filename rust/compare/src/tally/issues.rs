//! Where the issue of a value shows: in the rows of a design, and in what comes of
//! operations.

use std::ops::Range;

use notation::{Command as Written, Piece, Row, Table, CELLS};
use reference::design::Design;
use reference::desk::Answer;
use reference::refusal::Cause;
use reference::script::{Command, Pair, Probe, Value};

use crate::replay::Replay;

/// What a refused design shows, whose faulty command is the piece at a place among
/// the design's.
pub fn refused(design: &[Piece], place: usize, cause: &str) -> Option<&'static str> {
    let row = row_with_issues(design.get(place)?)?;
    let issues = row.issues?;
    let Table { columns, .. } = *tables(design).get(usize::from(row.table))?;
    let has_issue =
        |mut cells: Range<usize>| cells.any(|cell| issues[cell] != 0 && row.cells[cell] == 0);
    match cause {
        "5" if issues == [0; CELLS] => Some("design refused 5 for no issue"),
        "5" if has_issue(columns.into()..CELLS) => {
            Some("design refused 5 for an issue past the columns")
        }
        "5" if has_issue(0..columns.into()) => Some("design refused 5 for the issue of a blank"),
        "6" => Some("design refused 6 for an issue"),
        _ => None,
    }
}

/// What an accepted design shows.
pub fn accepted(design: &[Piece]) -> Vec<&'static str> {
    let rows: Vec<&Row> = design.iter().filter_map(row_of).collect();
    let mut outcomes = Vec::new();
    if rows.iter().any(|row| row.issues.is_some()) {
        outcomes.push("design accepted with issues");
    }
    let tables = tables(design);
    let is_repeated = |row: &Row, column: usize| {
        let unique = tables[usize::from(row.table)].unique;
        let of_table = rows.iter().filter(|other| other.table == row.table);
        let with_number = of_table.filter(|other| other.cells[column] == row.cells[column]);
        unique >> column & 1 == 1 && row.cells[column] != 0 && with_number.count() > 1
    };
    if rows
        .iter()
        .any(|row| row.issues.is_some() && (0..CELLS).any(|column| is_repeated(row, column)))
    {
        outcomes.push("unique column with two issues of a number");
    }
    outcomes
}

fn tables(design: &[Piece]) -> Vec<Table> {
    let table = |piece: &Piece| match piece {
        Piece::Command(Written::Table(table)) => Some(*table),
        _ => None,
    };
    design.iter().filter_map(table).collect()
}

fn row_of(piece: &Piece) -> Option<&Row> {
    match piece {
        Piece::Command(Written::Row(row)) => Some(row),
        _ => None,
    }
}

fn row_with_issues(piece: &Piece) -> Option<&Row> {
    row_of(piece).filter(|row| row.issues.is_some())
}

/// The outcomes of the next command.
pub fn outcomes(replay: &Replay, command: &Command) -> Vec<&'static str> {
    let Some(value) = value_of(command) else {
        return Vec::new();
    };
    let others = others(replay.design(), value);
    if value.issue == 0 && others.is_empty() {
        return Vec::new();
    }
    let answer = replay.try_out(command);
    let mut outcomes = Vec::new();
    if value.issue != 0 {
        outcomes.extend(with_issue(value, &answer));
    }
    let mut others = others.into_iter();
    if others.any(|other| is_told_apart(replay, command, &answer, other)) {
        outcomes.extend(told_apart(&answer));
    }
    outcomes
}

fn value_of(command: &Command) -> Option<Value> {
    match command {
        Command::Refer(pair) | Command::Drop(pair) => Some(pair.value),
        Command::Probe(probe) => Some(probe.value),
        Command::Query(query) => Some(query.value),
        Command::Total(total) => Some(total.query.value),
        _ => None,
    }
}

/// The same number with the other issues that it has in rows, and without.
fn others(design: &Design, value: Value) -> Vec<Value> {
    let cells = design.rows.iter().flatten().flat_map(|row| row.cells);
    let mut others: Vec<Value> = cells.filter(|cell| cell.number == value.number).collect();
    if others.iter().any(|cell| cell.issue != 0) {
        others.push(Value { issue: 0, ..value });
    }
    others.sort_unstable();
    others.dedup();
    others.retain(|other| *other != value && other.number != 0);
    others
}

/// What came of an operation on a value with an issue.
fn with_issue(value: Value, answer: &Result<Answer, Cause>) -> Option<&'static str> {
    match answer {
        Ok(Answer::Loaded { rows: 1.., .. }) if value.issue == u8::MAX => {
            Some("issue 255 loaded with rows")
        }
        Ok(Answer::Loaded { rows: 1.., .. }) => Some("issue loaded with rows"),
        Ok(Answer::Dropped { rows: 1.. }) => Some("issue dropped with rows"),
        Ok(Answer::NoCandidate) => Some("issue of no candidate"),
        Ok(Answer::Ground { ground: 1, .. }) => Some("issue probed by ground 1"),
        Ok(Answer::Ground { ground: 2, .. }) => Some("issue probed by ground 2"),
        Ok(Answer::Ground { .. }) => Some("issue probed by ground 3"),
        Ok(Answer::Lists(lists)) if !lists.is_empty() => Some("issue queried with lists"),
        Ok(Answer::Total(1..)) => Some("issue with a total above 0"),
        Err(Cause::ValueZero) => Some("refused 9 with an issue"),
        _ => None,
    }
}

/// Whether the operation would have been answered in another way if issues weren't
/// looked at, since another issue of its number is held, or has a ground.
fn is_told_apart(
    replay: &Replay,
    command: &Command,
    answer: &Result<Answer, Cause>,
    other: Value,
) -> bool {
    match (*command, answer) {
        (Command::Refer(pair), Ok(Answer::Loaded { .. }))
        | (Command::Drop(pair), Err(Cause::NotHeld)) => {
            let refer = Command::Refer(Pair {
                value: other,
                ..pair
            });
            replay.try_out(&refer) == Ok(Answer::Held)
        }
        (Command::Probe(probe), Ok(Answer::Sent)) => {
            let probe = Command::Probe(Probe {
                value: other,
                ..probe
            });
            replay.try_out(&probe) != Ok(Answer::Sent)
        }
        _ => false,
    }
}

fn told_apart(answer: &Result<Answer, Cause>) -> Option<&'static str> {
    match answer {
        Ok(Answer::Loaded { .. }) => Some("loaded beside another issue"),
        Ok(Answer::Sent) => Some("sent beside another issue with a ground"),
        Err(Cause::NotHeld) => Some("refused 10 beside another issue"),
        _ => None,
    }
}

#[cfg(test)]
mod tests {
    use super::*;
    use notation::{assemble, split};

    #[test]
    fn operations_with_issues() {
        let text = "table 2 unique 0\ntable 1\nconstraint 0.0 -> 1.0\nfilling 0.0 1..9\n\
            row 0 7 -\nrow 0 7#1 -\nrow 0 7#255 -\nrow 1 7#1\nend\nrefer 0 7\nprobe 0.0 = 7#1\n\
            drop 0 7#1\nquery 0.0 = 7#1\nprobe 0.0 = 7#1\nprobe 1.0 = 7#1\nrefer 0 7#255\n\
            refer 0 10#1\nprobe 0.0 = 0#3\nprobe 1.0 = 7#2\ntotal 1.0 = 7#1 of 0 column 0\n\
            drop 0 7#1\nprobe 0.0 = 7#0\n";
        let script = assemble(text).expect("a right text");
        let mut replay = Replay::new(&script).expect("an accepted design");
        let mut found = Vec::new();
        while let Some(command) = replay.command() {
            found.extend(outcomes(&replay, &command));
            replay.perform();
        }
        let expected = [
            "sent beside another issue with a ground",
            "refused 10 beside another issue",
            "issue queried with lists",
            "issue probed by ground 1",
            "issue probed by ground 2",
            "issue 255 loaded with rows",
            "loaded beside another issue",
            "issue of no candidate",
            "refused 9 with an issue",
            "sent beside another issue with a ground",
            "issue with a total above 0",
            "issue dropped with rows",
        ];
        assert_eq!(found, expected);
    }

    #[test]
    fn designs_with_issues() {
        let design = "table 2 unique 0\n";
        for (rows, expected) in [
            ("row 0 7 -\nrow 0 8 -\n", &[][..]),
            ("row 0 7 -\nrow 0 8#1 -\n", &["design accepted with issues"]),
            (
                "row 0 7 -\nrow 0 7#1 -\n",
                &[
                    "design accepted with issues",
                    "unique column with two issues of a number",
                ],
            ),
            ("row 0 7 3\nrow 0 8 3#1\n", &["design accepted with issues"]),
        ] {
            let script = assemble(&format!("{design}{rows}"));
            let pieces = split(&script.expect("a right text"));
            assert_eq!(accepted(&pieces), expected, "{rows}");
        }
        for (row, cause, expected) in [
            ("row 0 7#0 -", "5", Some("design refused 5 for no issue")),
            (
                "row 0 -#1 -",
                "5",
                Some("design refused 5 for the issue of a blank"),
            ),
            (
                "row 0 7 8 -#1",
                "5",
                Some("design refused 5 for an issue past the columns"),
            ),
            ("row 0 7#1 -", "6", Some("design refused 6 for an issue")),
            ("row 0 7 -", "6", None),
            ("row 1 7#1", "5", None),
        ] {
            let script = assemble(&format!("{design}{row}\n"));
            let pieces = split(&script.expect("a right text"));
            assert_eq!(refused(&pieces, 1, cause), expected, "{row}");
        }
    }
}
