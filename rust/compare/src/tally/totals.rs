//! What a total shows beside other questions about the same rows.

use reference::design::Design;
use reference::desk::Answer;
use reference::refusal::Cause;
use reference::script::{Command, Join, Query, Total, Value, PAIRS, UNUSED};

use crate::replay::Replay;

/// A group of fewer rows can't come to more than 2^64 - 1 over four positions.
const FEWEST_ROWS: usize = 256;

/// The outcomes of the next command, if it is a total.
pub fn outcomes(replay: &Replay, command: &Command) -> Vec<&'static str> {
    let Command::Total(total) = command else {
        return Vec::new();
    };
    let listed = replay.try_out(&Command::Query(total.query));
    let answer = replay.try_out(&Command::Total(*total));
    let mut outcomes = Vec::new();
    match answer {
        Ok(Answer::Total(_)) => {
            if listed == Err(Cause::AnswerTooLong) {
                outcomes.push("total of lists that are too long for a query");
            }
            let inner = inner_totals(replay.design(), total).into_iter();
            let mut inner = inner.map(|inner| replay.try_out(&Command::Total(inner)));
            if inner.any(|inner| inner == Err(Cause::TotalTooLarge)) {
                outcomes.push("total beside a group above 2^64 - 1");
            }
        }
        Err(Cause::WrongOperand) if listed != Err(Cause::WrongOperand) => {
            outcomes.push("total refused 5 for its position or column");
        }
        _ => {}
    }
    outcomes
}

/// The totals from position 1 on, if all later positions hang on it: one for each
/// large group of rows that may stand there, whether a row of position 0 leads to
/// it or not.
fn inner_totals(design: &Design, total: &Total) -> Vec<Total> {
    let Query { joins, pairs, .. } = total.query;
    let (Some((first, rest)), Some(position)) =
        (pairs[..joins].split_first(), total.position.checked_sub(1))
    else {
        return Vec::new();
    };
    if rest.iter().any(|join| join.position == 0) {
        return Vec::new();
    }
    let mut inner = [UNUSED; PAIRS];
    for (inner, join) in inner.iter_mut().zip(rest) {
        *inner = Join {
            position: join.position - 1,
            ..*join
        };
    }
    let column = design.constraints[first.constraint].target;
    let cell = |row: usize| design.cell(row, column);
    let mut values: Vec<Value> = (0..design.rows.len()).filter_map(cell).collect();
    values.sort_unstable();
    values.dedup();
    let rows_with = |value| {
        let rows = 0..design.rows.len();
        rows.filter(|&row| design.equals(row, column, value))
            .count()
    };
    values.retain(|&value| rows_with(value) >= FEWEST_ROWS);
    let inner_total = |value| Total {
        query: Query {
            column,
            value,
            joins: joins - 1,
            pairs: inner,
        },
        position,
        column: total.column,
    };
    values.into_iter().map(inner_total).collect()
}

#[cfg(test)]
mod tests {
    use super::*;
    use notation::assemble;

    /// The outcomes of the first operation on a design.
    fn outcomes_of(design: &str, operation: &str) -> Vec<&'static str> {
        let text = format!("{design}end\n{operation}\n");
        let script = assemble(&text).expect("a right text");
        let replay = Replay::new(&script).expect("an accepted design");
        outcomes(&replay, &replay.command().expect("a command"))
    }

    #[test]
    fn operands_that_only_a_total_has() {
        let design = "table 2\ntable 1\nconstraint 0.0 -> 1.0\n";
        let wrong = ["total refused 5 for its position or column"];
        for (operation, expected) in [
            ("total 0.0 = 1 join 0 by 0 of 0 column 1", &[][..]),
            ("total 0.0 = 1 join 0 by 0 of 1 column 1", &wrong),
            ("total 0.0 = 1 join 0 by 0 of 2 column 0", &wrong),
            ("total 0.0 = 0 of 1 column 0", &wrong),
            ("total 0.0 = 0 of 0 column 0", &[]),
            ("total 0.0 = 1 join 0 by 1 of 2 column 0", &[]),
        ] {
            assert_eq!(outcomes_of(design, operation), expected, "{operation}");
        }
    }

    #[test]
    fn lists_that_are_too_long() {
        let rows = "row 0 1\n".repeat(512);
        let design = format!("table 1\nconstraint 0.0 -> 0.0\nfilling 0.0 1..9\n{rows}");
        let total = "total 0.0 = 1 join 0 by 0 of 0 column 0";
        let expected = ["total of lists that are too long for a query"];
        assert_eq!(outcomes_of(&design, total), expected);
        let total = "total 0.0 = 1 of 0 column 0";
        assert_eq!(outcomes_of(&design, total), [""; 0]);
    }

    #[test]
    fn groups_that_no_list_reaches() {
        let design = |rows| {
            let rows = "row 1 10 4294967295\n".repeat(rows);
            format!(
                "table 2\ntable 2\nconstraint 0.1 -> 1.0\nconstraint 1.0 -> 1.0\n\
                 filling 0.0 1..99\nfilling 1.0 1..99\nrow 0 1 11\n{rows}"
            )
        };
        let joins = "join 0 by 0 join 1 by 1 join 2 by 1 join 3 by 1";
        let expected = ["total beside a group above 2^64 - 1"];
        for (rows, cell, expected) in [
            (300, "1 column 1", &expected[..]),
            (300, "4 column 1", &expected),
            (300, "0 column 1", &[]),
            (256, "1 column 1", &[]),
        ] {
            let total = format!("total 0.0 = 1 {joins} of {cell}");
            assert_eq!(outcomes_of(&design(rows), &total), expected, "{total}");
        }
    }
}
