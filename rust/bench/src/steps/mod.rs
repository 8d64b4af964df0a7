//! The library's figures for `docs/BENCHMARKS.md`: its sizes, what a step costs that tests
//! its desk and one that trusts it, and how much stack a call takes.

#![allow(unsafe_code)]

mod missing;
pub mod page;
pub mod stack;

use std::mem::size_of;

use notation::{encode, Command, Design};
use reference::ANSWER_WORDS;
use wurzsige_sys::{word, Memory, Sizes, Told, MOST_DESIGN, MOST_TEXT};

use crate::clock::thread_time;
use crate::measure::{measure_runs, Run, Timing};
use crate::table::{ratio, time};
use crate::work::growing::chain_design;
use crate::work::laboratory::{laboratory, WARDS};
use crate::work::{
    column, constraint, drop, filling, join, opener, probe, query, refer, table, MOST_ROWS,
};
use page::markdown;
use stack::touched;

/// The rows of a small, a medium and the largest design.
const SIZES: [usize; 3] = [16, 128, MOST_ROWS];

/// Times that an operation is carried out in one run.
const TIMES: usize = 100;

/// A desk with all that it is lent. Only the library writes the memory.
#[derive(Debug)]
pub struct Lent {
    memory: Box<Memory>,
    words: Vec<u32>,
    text: Vec<u8>,
}

impl Lent {
    /// Opens a design and carries out operations on it.
    fn new(design: &Design, before: &[Command]) -> Lent {
        let mut memory = Memory::boxed();
        let told = memory.open(&encode(&design.commands()));
        assert_eq!(told.word, word::DESIGN, "the design is accepted");
        let mut lent = Lent {
            memory,
            words: vec![0; ANSWER_WORDS],
            text: vec![0; MOST_TEXT],
        };
        for operation in before {
            let told = lent.trusted(&operation.bytes());
            assert_ne!(told.word, word::REFUSED, "{operation:?}");
        }
        lent
    }

    fn checked(&mut self, operation: &[u8]) -> Told {
        let Lent {
            memory,
            words,
            text,
        } = self;
        memory.step(operation, 0, words, text)
    }

    fn trusted(&mut self, operation: &[u8]) -> Told {
        let Lent {
            memory,
            words,
            text,
        } = self;
        // SAFETY: a design was opened there, and only the library has written it since.
        unsafe { memory.step_trusted(operation, 0, words, text) }
    }
}

/// All figures, as they stand on the page.
pub fn figures() -> String {
    let sizes = markdown(&["What is lent", "bytes"], &sizes());
    let head = ["A step", "rows", "plain", "trusted", "plain / trusted"];
    let costs = markdown(&head, &costs());
    let head = [
        "What lacks",
        "rows cached",
        "fetches",
        "plain",
        "trusted",
        "plain / trusted",
    ];
    let missing = markdown(&head, &missing::costs());
    let stack = markdown(&["A call", "bytes of stack"], &stacks());
    format!("{sizes}\n{costs}\n{missing}\n{stack}")
}

fn sizes() -> Vec<Vec<String>> {
    let size = |name: &str, bytes: usize| vec![name.into(), bytes.to_string()];
    vec![
        size("`struct wurzsige`, `Memory`", size_of::<Memory>()),
        size("`struct wurzsige_answer`", size_of::<Told>()),
        size("`struct wurzsige_room`", size_of::<Sizes>()),
        size(
            "words for lists, as the program lends them",
            4 * ANSWER_WORDS,
        ),
        size("text for any reason", MOST_TEXT),
        size("room for any written design", MOST_DESIGN),
    ]
}

/// Operations that leave a laboratory as it was, with half of its wards held.
fn works(rows: usize) -> Vec<(&'static str, Lent, Vec<Command>)> {
    let design = laboratory(rows);
    let wards = WARDS.min(rows as u32 / 8);
    let held: Vec<Command> = (1..=wards / 2).map(|ward| refer(0, ward)).collect();
    let joins = [join(0, 0), join(1, 1)];
    [
        ("PROBE", vec![probe(column(1, 1), 1)]),
        (
            "REFER or DROP of a ward",
            vec![refer(0, wards), drop(0, wards)],
        ),
        (
            "QUERY of a ward with 2 joins",
            vec![query(column(0, 1), 1, &joins)],
        ),
    ]
    .map(|(name, operations)| (name, Lent::new(&design, &held), operations))
    .into()
}

fn costs() -> Vec<Vec<String>> {
    let mut table = Vec::new();
    for rows in SIZES {
        for (name, mut lent, operations) in works(rows) {
            let bytes: Vec<Vec<u8>> = operations.iter().map(Command::bytes).collect();
            let plain = least(&bytes, |bytes| lent.checked(bytes));
            let trusted = least(&bytes, |bytes| lent.trusted(bytes));
            table.push(vec![
                name.into(),
                rows.to_string(),
                time(plain),
                time(trusted),
                ratio(plain, trusted),
            ]);
        }
    }
    table
}

/// The least time of a step, on the average of a run.
fn least(operations: &[Vec<u8>], mut step: impl FnMut(&[u8]) -> Told) -> Timing {
    let run: Run<'_> = Box::new(move || {
        let start = thread_time();
        for _ in 0..TIMES {
            for operation in operations {
                assert_ne!(step(operation).word, word::REFUSED);
            }
        }
        let time = thread_time() - start;
        Some(time.as_secs_f64() / (TIMES * operations.len()) as f64)
    });
    measure_runs(vec![run])[0]
}

/// The lists of the deepest query: by 511 rows at the first position, which lead to the
/// first row alone, by 510 at each of the next three, and by 511 at the last.
const DEEP_LISTS: u64 = 2_552;

/// All rows have 1 in their first cell. All but the last lead to the first row alone, and
/// the last leads to all but the first: a query with four joins has few lists, and at each
/// position goes through all rows to the last.
fn deep_design(rows: usize) -> Design {
    let mut design = Design {
        tables: vec![table(3, 0)],
        constraints: vec![constraint(column(0, 1), column(0, 2))],
        fillings: vec![filling(column(0, 0))],
        rows: Vec::new(),
    };
    for number in 0..rows {
        let from = if number + 1 == rows { 7 } else { 8 };
        let to = if number == 0 { 8 } else { 7 };
        design.add_row(0, &[1, from, to]);
    }
    design
}

/// A query whose lists go deepest, and a desk with words for them.
fn deepest_query() -> (Lent, Vec<u8>) {
    let joins: Vec<_> = (0..4).map(|position| join(position, 0)).collect();
    let mut lent = Lent::new(&deep_design(MOST_ROWS), &[refer(0, 1)]);
    lent.words.resize(5 * DEEP_LISTS as usize, 0);
    (lent, query(column(0, 0), 1, &joins).bytes())
}

/// The calls that go deepest, on the largest designs: a chain in which each row demands
/// the next, and the lists that go deepest.
fn stacks() -> Vec<Vec<String>> {
    let chain = chain_design(MOST_ROWS);
    let script = encode(&chain.commands());
    let last = MOST_ROWS as u16 - 1;
    let [first, reason] = [refer(0, 1), Command::Reason(last)].map(|command| command.bytes());
    let asked = probe(column(0, 0), 2).bytes();
    let opened_by = opener(column(0, 0), u32::from(last)).bytes();
    let joins: Vec<_> = (0..4).map(|position| join(position, 0)).collect();
    let listed = query(column(0, 0), 1, &joins).bytes();
    let even = Command::Even.bytes();
    let knot = Command::Knot.bytes();
    let empty = || Lent::new(&chain, &[]);
    let full = || Lent::new(&chain, &[refer(0, 1)]);
    let mut out = vec![0; MOST_DESIGN];
    let row = |name: &str, bytes: usize| vec![name.to_string(), bytes.to_string()];
    let plain = |name: &str, mut lent: Lent, operation: &[u8]| {
        let step = touched(|| {
            lent.checked(operation);
        });
        row(&format!("plain step: {name}"), step)
    };
    let trusted = |name: &str, mut lent: Lent, operation: &[u8]| {
        let step = touched(|| {
            lent.trusted(operation);
        });
        row(&format!("trusted step: {name}"), step)
    };
    let mut opened = Memory::boxed();
    let open = touched(|| {
        opened.open(&script);
    });
    let (deep, lists) = deepest_query();
    let plain_lists = plain("QUERY of 2,552 lists", deep, &lists);
    let (deep, lists) = deepest_query();
    let trusted_lists = trusted("QUERY of 2,552 lists", deep, &lists);
    let lent = full();
    let write = touched(|| {
        lent.memory.write(&mut out).expect("a written design");
    });
    let sizes = touched(|| {
        lent.memory.sizes(&listed, 0).expect("sizes");
    });
    let lacks = touched(|| {
        lent.memory.missing(&[]).expect("no fetches");
    });
    vec![
        row("open, 512 rows", open),
        plain("PROBE", full(), &asked),
        plain("REFER of 512 rows in 511 rounds", empty(), &first),
        plain("QUERY with 4 joins", full(), &listed),
        plain_lists,
        plain("a reason of 511 links", full(), &reason),
        plain("an opener through 512 rows", empty(), &opened_by),
        plain("even", full(), &even),
        plain("knot", full(), &knot),
        trusted("PROBE", full(), &asked),
        trusted("REFER of 512 rows in 511 rounds", empty(), &first),
        trusted("QUERY with 4 joins", full(), &listed),
        trusted_lists,
        trusted("a reason of 511 links", full(), &reason),
        row("write, 512 rows", write),
        row("sizes of a QUERY with 4 joins", sizes),
        row("what lacks, by the plain name", lacks),
    ]
}

#[cfg(test)]
mod tests {
    use super::*;

    #[test]
    fn works_leave_the_desk_as_it_was() {
        for rows in SIZES {
            for (name, mut lent, operations) in works(rows) {
                let before = *lent.memory.marks();
                assert!(before.contains(&1), "{name}: nothing is cached");
                for operation in &operations {
                    let told = lent.checked(&operation.bytes());
                    assert_ne!(told.word, word::REFUSED, "{name}");
                    assert_ne!(told.word, word::SENT, "{name}");
                }
                assert_eq!(*lent.memory.marks(), before, "{name}");
            }
        }
    }

    #[test]
    fn the_deepest_query_has_2552_lists() {
        let (mut lent, lists) = deepest_query();
        let told = lent.trusted(&lists);
        assert_eq!((told.word, told.numbers[0]), (word::LISTS, DEEP_LISTS));
    }

    #[test]
    fn the_chain_has_a_reason_of_511_links() {
        let mut lent = Lent::new(&chain_design(MOST_ROWS), &[refer(0, 1)]);
        let told = lent.trusted(&Command::Reason(MOST_ROWS as u16 - 1).bytes());
        let sentence = &lent.text[..told.numbers[0] as usize];
        let sentence = String::from_utf8_lossy(sentence);
        assert_eq!(sentence.matches("by constraint").count(), 511);
    }
}
