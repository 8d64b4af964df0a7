//! Works that reach twelve rows, beside any number of others that they don't
//! reach, up to 500: their time should stay the same.

use notation::{Command, Design};

use super::{column, constraint, filling, join, load_and_drop, probe, query, refer, table, Work};

/// The rows that the works reach.
pub const REACHED: usize = 12;

/// The works beside a number of other rows.
pub fn works(others: usize) -> Vec<Work> {
    let both = || vec![refer(0, 1), refer(0, OTHER_WARD)];
    let joins = [join(0, 0), join(1, 1)];
    let work = |name, before, operation: &[Command]| {
        Work::repeating(name, design(others), before, operation)
    };
    vec![
        work(
            "load and drop, the others uncached",
            vec![],
            &load_and_drop(0, [1]),
        ),
        work(
            "probe, the others uncached",
            vec![refer(0, 1)],
            &[probe(column(1, 0), 1)],
        ),
        work(
            "probe, the others cached",
            both(),
            &[probe(column(1, 0), 1)],
        ),
        work(
            "query with 2 joins, the others uncached",
            vec![refer(0, 1)],
            &[query(column(0, 1), 1, &joins)],
        ),
        work(
            "query with 2 joins, the others cached",
            both(),
            &[query(column(0, 1), 1, &joins)],
        ),
    ]
}

const OTHER_WARD: u32 = 2;

/// Subjects (number, ward), recordings (number, subject) and events (recording,
/// kind): twelve of ward 1, and the others of ward 2. Theirs are the numbers
/// from 1,001 on.
fn design(others: usize) -> Design {
    let mut design = Design {
        tables: vec![table(2, 0b01), table(2, 0b01), table(2, 0)],
        constraints: vec![
            constraint(column(0, 0), column(1, 1)),
            constraint(column(1, 0), column(2, 0)),
        ],
        fillings: vec![filling(column(0, 1))],
        rows: Vec::new(),
    };
    for subject in 1..=2 {
        design.add_row(0, &[subject, 1]);
    }
    for recording in 1..=4 {
        design.add_row(1, &[recording, 1 + recording % 2]);
    }
    for event in 1..=6 {
        design.add_row(2, &[1 + event % 4, event]);
    }
    let others = others as u32;
    for number in 0..others {
        let own = 1_001 + number / 4;
        match number % 4 {
            0 => design.add_row(0, &[own, OTHER_WARD]),
            1 => design.add_row(1, &[own, own]),
            _ => design.add_row(2, &[own, 1]),
        }
    }
    design
}
