//! What a desk says is missing, and its design's verdicts, beside the second implementation:
//! on the desks that the examples and generated scripts leave, with lists of fetches that grow.

mod common;

use common::all_examples;
use compare::generate::script;
use compare::replay::Replay;
use reference::lent::fetch_words;
use reference::script::Column as Place;
use wurzsige::{Column, Desk, Fetch, Fetches};

/// A fetch of the second implementation as one of the crate's.
fn typed(fetch: reference::slice::Fetch) -> Fetch {
    let [kind, table, column, number, end] = fetch_words(fetch);
    let column = Column::new(table as u8, column as u8);
    match kind {
        0 => Fetch::Value {
            column,
            value: (number, end as u8).into(),
        },
        _ => Fetch::Span {
            column,
            low: number,
            high: end,
        },
    }
}

/// How many fetches a desk asks for, one after the other, without a row of them being put
/// in: each has to be the second implementation's.
fn asked(desk: &Desk, replay: &Replay) -> usize {
    let (mut fetches, mut there) = (Fetches::new(), Vec::new());
    while let Some(missing) = replay.desk().missing(&there) {
        assert_eq!(desk.missing(&fetches), Ok(Some(typed(missing))));
        fetches.note(typed(missing));
        there.push(missing);
    }
    assert_eq!(desk.missing(&fetches), Ok(None));
    there.len()
}

fn same_verdicts(desk: &Desk, replay: &Replay) {
    let design = replay.desk().design();
    let verdicts = desk.design().verdicts().expect("a desk's design");
    let mut verdicts = verdicts.into_iter();
    for (table, of) in design.tables.iter().enumerate() {
        for column in 0..of.columns {
            let expected = design.verdict(Place { table, column }).expect("a column");
            let verdict = verdicts.next().expect("a verdict for each column");
            assert_eq!(verdict.column, Column::new(table as u8, column as u8));
            assert_eq!(verdict.fetches, expected.fetches);
            let link = expected.once_linked.map(|link| link as u8);
            assert_eq!(verdict.once_linked, link);
            assert_eq!(verdict.once_unique, expected.once_unique);
            assert_eq!(verdict.never(), expected.never());
            assert_eq!(verdict.seeing_is_enough, expected.seeing_is_enough);
        }
    }
    assert_eq!(verdicts.next(), None);
}

/// Goes through a script, if its design is accepted, and gives how many fetches were asked
/// for at its end.
fn run(script: &[u8]) -> Option<usize> {
    let mut desk = Desk::open(script).ok()?;
    let mut replay = Replay::new(script).expect("a design");
    same_verdicts(&desk, &replay);
    for _ in 0..30 {
        let at = replay.place();
        if at >= script.len() || replay.perform().is_none() {
            break;
        }
        desk.step(script, at);
    }
    Some(asked(&desk, &replay))
}

#[test]
fn examples_ask_for_what_the_second_implementation_does() {
    let asked = all_examples()
        .iter()
        .filter_map(|example| run(&example.script))
        .sum::<usize>();
    assert!(asked > 20, "only {asked}");
}

#[test]
fn generated_desks_ask_for_what_the_second_implementation_does() {
    let asked: Vec<usize> = (0..400)
        .filter_map(|number| run(&script(1, number)))
        .collect();
    assert!(asked.len() > 150, "only {} designs", asked.len());
    let many = asked.iter().filter(|&&count| count > 3).count();
    assert!(many > 20, "only {many} desks");
}

#[test]
fn a_fetch_of_no_column_is_refused_by_name() {
    let desk = Desk::open(&[0x01, 2, 0, 0x05]).expect("a design");
    let column = Column::new(0, 2);
    let mut fetches = Fetches::new();
    fetches.note(Fetch::Value {
        column,
        value: 7.into(),
    });
    let refusal = desk.missing(&fetches).expect_err("no column");
    let wrong = "refused for cause 5, operand wrong: column 0.2";
    assert_eq!(refusal.to_string(), wrong);
}

#[test]
fn spans_are_joined_whatever_their_order() {
    let column = Column::new(0, 0);
    let spans = [
        (5, 9),
        (1, 2),
        (20, 30),
        (3, 4),
        (10, 19),
        (u32::MAX, u32::MAX),
    ];
    let mut fetches = Fetches::new();
    for (low, high) in spans {
        fetches.note(Fetch::Span { column, low, high });
    }
    let listed: Vec<String> = fetches.iter().map(|fetch| fetch.to_string()).collect();
    assert_eq!(listed, ["0.0 = 1..30", "0.0 = 4294967295..4294967295"]);
    fetches.note(Fetch::Span {
        column,
        low: 0,
        high: u32::MAX,
    });
    let listed: Vec<String> = fetches.iter().map(|fetch| fetch.to_string()).collect();
    assert_eq!(listed, ["0.0 = 1..4294967295"]);
}
