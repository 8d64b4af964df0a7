//! Desks that are wrong about rows that come and go.

use compare::level::Level;
use reference::desk::Answer;
use reference::refusal::Cause;
use reference::script::{Column, Command, Row, BLANK, CELLS};

use crate::performing::{is_found, is_found_remembering};

#[test]
fn a_desk_that_keeps_a_row_that_goes() {
    assert!(is_found(Level::NOW, |_, desk, command| match command {
        Command::Take(_) => desk.clone().perform(command),
        _ => desk.perform(command),
    }));
}

#[test]
fn a_desk_that_does_not_count_the_row_itself() {
    assert!(is_found(Level::NOW, |_, desk, command| {
        match desk.perform(command) {
            Ok(Answer::Rows { came, went }) => Ok(Answer::Rows {
                came: came.saturating_sub(1),
                went: went.saturating_sub(1),
            }),
            answer => answer,
        }
    }));
}

#[test]
fn a_desk_that_exchanges_came_and_went() {
    assert!(is_found(Level::NOW, |_, desk, command| {
        match desk.perform(command) {
            Ok(Answer::Rows { came, went }) => Ok(Answer::Rows {
                came: went,
                went: came,
            }),
            answer => answer,
        }
    }));
}

#[test]
fn a_desk_that_looks_for_a_value_among_earlier_rows_alone() {
    assert!(is_found(Level::NOW, |_, desk, command| {
        let answer = desk.perform(command);
        match (command, &answer) {
            (Command::Put { number, .. }, Err(Cause::ValueTwice)) => {
                let mut earlier = desk.clone();
                for row in *number..desk.design().rows.len() {
                    let _ = earlier.perform(&Command::Take(row));
                }
                match earlier.perform(command) {
                    Err(Cause::ValueTwice) => answer,
                    _ => Ok(Answer::Rows { came: 0, went: 0 }),
                }
            }
            _ => answer,
        }
    }));
}

/// The values of a row that went are still looked at in unique columns, until its
/// number is taken again.
#[test]
fn a_desk_that_keeps_the_cells_of_a_row_that_goes() {
    type Kept = Vec<(usize, Row)>;
    assert!(is_found_remembering(
        Level::NOW,
        |kept: &mut Kept, desk, command| {
            let before = desk.design().clone();
            let answer = desk.perform(command);
            match command {
                Command::Take(number) if answer.is_ok() => {
                    kept.extend(before.rows[*number].map(|row| (*number, row)));
                }
                Command::Put { number, row } if answer.is_ok() => {
                    kept.retain(|(free, _)| free != number);
                    let repeats = |(_, other): &(usize, Row)| {
                        let is_same = |column: usize| {
                            let table = row.table;
                            row.cells[column] != BLANK
                                && row.cells[column] == other.cells[column]
                                && before.is_unique(Column { table, column })
                        };
                        other.table == row.table && (0..CELLS).any(is_same)
                    };
                    if kept.iter().any(repeats) {
                        return Err(Cause::ValueTwice);
                    }
                }
                _ => {}
            }
            answer
        }
    ));
}

/// A row that comes at the number of a cached one that went isn't counted, since its
/// mark is there.
#[test]
fn a_desk_that_keeps_the_mark_of_a_row_that_goes() {
    assert!(is_found_remembering(
        Level::NOW,
        |marked: &mut Vec<usize>, desk, command| {
            let answer = desk.perform(command);
            match (command, &answer) {
                (Command::Take(number), Ok(Answer::Rows { went: 1.., .. })) => {
                    marked.push(*number);
                    answer
                }
                (Command::Put { number, .. }, Ok(Answer::Rows { came, went })) => {
                    let is_marked = marked.contains(number);
                    marked.retain(|free| free != number);
                    Ok(Answer::Rows {
                        came: came.saturating_sub(usize::from(is_marked)),
                        went: *went,
                    })
                }
                _ => answer,
            }
        }
    ));
}

/// It takes the numbers below the count of rows for the taken ones.
#[test]
fn a_desk_that_counts_the_rows_to_know_which_are_there() {
    assert!(is_found(Level::NOW, |design, desk, command| {
        let count = design.rows.iter().flatten().count();
        let is_refused = match command {
            Command::Put { number, .. } => *number < count,
            Command::Take(number) | Command::Reason(number) => *number >= count,
            _ => false,
        };
        if is_refused {
            return Err(Cause::WrongOperand);
        }
        desk.perform(command)
    }));
}

#[test]
fn a_desk_that_takes_512_for_a_number() {
    assert!(is_found(Level::NOW, |_, desk, command| match command {
        Command::Put { number: 512, .. } => Ok(Answer::Rows { came: 0, went: 0 }),
        _ => desk.perform(command),
    }));
}

#[test]
fn a_desk_that_calls_a_row_that_went_absent() {
    assert!(is_found(Level::NOW, |_, desk, command| {
        let answer = desk.perform(command);
        match (command, &answer) {
            (Command::Reason(row), Err(Cause::WrongOperand)) if *row < desk.design().rows.len() => {
                Ok(Answer::Absent)
            }
            _ => answer,
        }
    }));
}

/// It is right as long as no row comes or goes.
#[test]
fn a_desk_that_leaves_the_cache_as_it_was() {
    let perform = |_: &_, desk: &mut reference::desk::Desk, command: &_| {
        let answer = desk.perform(command);
        match answer {
            Ok(Answer::Rows { .. }) => Ok(Answer::Rows { came: 0, went: 0 }),
            answer => answer,
        }
    };
    assert!(is_found(Level::NOW, perform));
    assert!(!is_found(Level::before(12), perform));
}
