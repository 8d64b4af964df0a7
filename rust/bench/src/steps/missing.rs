//! What it costs to ask what a slice lacks, where nothing does: then every held value and
//! every value that a constraint demands of a cached row is looked for.

#![allow(unsafe_code)]

use notation::{Command, Design, Range};
use wurzsige_sys::FETCH_WORDS;

use super::Lent;
use crate::clock::thread_time;
use crate::measure::{measure_runs, Run, Timing};
use crate::table::{ratio, time};
use crate::work::laboratory::{laboratory, WARDS};
use crate::work::{column, constraint, filling, refer, table, MOST_ROWS};

/// Times that the question is asked in one run.
const TIMES: usize = 20;

/// A desk, and the fetches after which it lacks nothing, in rising order.
pub(super) struct Fed {
    lent: Lent,
    fetches: Vec<[u32; FETCH_WORDS]>,
}

impl Fed {
    /// The desk's rows are the whole database: whatever it asks for was fetched.
    fn new(lent: Lent) -> Fed {
        let mut fed = Fed {
            lent,
            fetches: Vec::new(),
        };
        while let Some(fetch) = fed.trusted() {
            let place = fed.fetches.partition_point(|before| *before < fetch);
            fed.fetches.insert(place, fetch);
        }
        fed
    }

    fn plain(&self) -> Option<[u32; FETCH_WORDS]> {
        self.lent.memory.missing(&self.fetches).expect("fetches")
    }

    fn trusted(&self) -> Option<[u32; FETCH_WORDS]> {
        // SAFETY: a design was opened there, and only the library has written it since.
        let told = unsafe { self.lent.memory.missing_trusted(&self.fetches) };
        told.expect("fetches")
    }
}

/// Columns that are linked to the next one and to the third one after it, in one table of
/// eight, so that a value brings in all rows. From row to row values rise by `stride`, an
/// odd number; `value` is what stands for each of the numbers 0 to `rows` less 1.
fn linked(rows: usize, unique: u8, stride: u32, value: impl Fn(u32) -> u32) -> Design {
    let mut design = Design {
        tables: vec![table(8, unique)],
        fillings: vec![filling(column(0, 0))],
        ..Design::default()
    };
    for place in 0..8 {
        for step in [1, 3] {
            let target = column(0, (place + step) % 8);
            design
                .constraints
                .push(constraint(column(0, place), target));
        }
    }
    let rows = rows as u32;
    for number in 0..rows {
        let first = number * stride;
        let cells: Vec<u32> = (0..8).map(|place| value((first + place) % rows)).collect();
        design.add_row(0, &cells);
    }
    design
}

/// Each column of a table is linked to two of the sixteen of two others, which have no rows:
/// no value is demanded twice.
fn scattered(rows: usize) -> Design {
    let mut design = Design {
        tables: vec![table(8, 0); 3],
        fillings: vec![filling(column(0, 0))],
        ..Design::default()
    };
    for place in 0..8 {
        for other in [1, 2] {
            let target = column(other, place);
            design
                .constraints
                .push(constraint(column(0, place), target));
        }
    }
    for row in 1..=rows as u32 {
        design.add_row(0, &[row; 8]);
    }
    design
}

/// Numbers without gaps, and with gaps of any size.
fn dense(number: u32) -> u32 {
    1 + number
}

fn gapped(number: u32) -> u32 {
    1 + number * 1000 + number * 7919 % 991
}

/// What is asked of: the largest designs, and an everyday one.
fn works(rows: usize) -> Vec<(&'static str, Fed)> {
    let half = WARDS.min(rows as u32 / 8) / 2;
    let wards: Vec<Command> = (1..=half).map(|ward| refer(0, ward)).collect();
    let all = Command::Hold(Range {
        filling: 0,
        low: 1,
        high: rows as u32,
    });
    let one = || vec![refer(0, 1)];
    [
        (
            "a laboratory, half of its wards held",
            laboratory(rows),
            wards,
        ),
        (
            "16 constraints, unique columns",
            linked(rows, 0xff, 1, dense),
            one(),
        ),
        (
            "16 constraints, values that rise",
            linked(rows, 0, 1, dense),
            one(),
        ),
        (
            "16 constraints, values in no order",
            linked(rows, 0, 197, dense),
            one(),
        ),
        (
            "16 constraints, values with gaps that rise",
            linked(rows, 0, 1, gapped),
            one(),
        ),
        (
            "16 constraints, values with gaps in no order",
            linked(rows, 0, 197, gapped),
            one(),
        ),
        (
            "16 constraints, no value demanded twice",
            scattered(rows),
            vec![all],
        ),
    ]
    .map(|(name, design, before)| (name, Fed::new(Lent::new(&design, &before))))
    .into()
}

/// The table's rows: what is asked of, how many rows are cached and fetches were made, and
/// the times.
pub(super) fn costs() -> Vec<Vec<String>> {
    works(MOST_ROWS)
        .iter()
        .map(|(name, fed)| {
            let cached = fed.lent.memory.marks().iter().filter(|mark| **mark == 1);
            let plain = least(|| fed.plain());
            let trusted = least(|| fed.trusted());
            vec![
                (*name).into(),
                cached.count().to_string(),
                fed.fetches.len().to_string(),
                time(plain),
                time(trusted),
                ratio(plain, trusted),
            ]
        })
        .collect()
}

/// The least time of a question, on the average of a run.
fn least(ask: impl Fn() -> Option<[u32; FETCH_WORDS]>) -> Timing {
    let run: Run<'_> = Box::new(move || {
        let start = thread_time();
        for _ in 0..TIMES {
            assert_eq!(ask(), None);
        }
        Some((thread_time() - start).as_secs_f64() / TIMES as f64)
    });
    measure_runs(vec![run])[0]
}

#[cfg(test)]
mod tests {
    use super::*;

    #[test]
    fn all_rows_are_cached_and_as_many_fetches_made_as_are_said() {
        let rows = 32;
        let made = works(rows).into_iter().skip(1).map(|(name, fed)| {
            let cached = fed.lent.memory.marks().iter().filter(|mark| **mark == 1);
            assert_eq!(cached.count(), rows, "{name}");
            assert_eq!(fed.plain(), None, "{name}");
            fed.fetches.len()
        });
        // of unique columns nothing; eight columns of as many values; sixteen, and the range
        assert_eq!(
            made.collect::<Vec<_>>(),
            [0, 8 * rows, 8 * rows, 8 * rows, 8 * rows, 16 * rows + 1]
        );
    }
}
