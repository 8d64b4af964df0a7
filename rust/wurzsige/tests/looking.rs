//! What a desk says of itself, held to what it does.

#![cfg(feature = "proved")]

mod common;

use std::cell::Cell;

use common::{all_examples, opened};
use compare::generate;
use wurzsige::{
    Answer, Builder, Constraint, Desk, Filling, Named, Origin, Range, Reason, Reasoned, Value,
};

/// Carries a script out, and looks at the desk after each operation.
fn after_each(script: &[u8], mut look: impl FnMut(&Desk)) {
    let Ok(mut desk) = Desk::open(script) else {
        return;
    };
    look(&desk);
    let mut at = desk.operations_at();
    while at < script.len() {
        let step = desk.step(script, at);
        if !step.more {
            return;
        }
        at = step.next;
        if !matches!(step.answer, Answer::Refused(_)) {
            look(&desk);
        }
    }
}

fn examples_and_generated(mut look: impl FnMut(&Desk)) {
    for example in all_examples() {
        after_each(&example.script, &mut look);
    }
    for number in 0..100 {
        after_each(&generate::script(13, number), &mut look);
    }
}

/// The same at the end of each script.
fn at_the_end(look: impl Fn(&Desk)) {
    let end = |script: &[u8]| {
        let mut last = None;
        after_each(script, |desk| last = Some(desk.clone()));
        last.iter().for_each(&look);
    };
    all_examples()
        .iter()
        .for_each(|example| end(&example.script));
    (0..600).for_each(|number| end(&generate::script(13, number)));
}

/// A design put together of a desk's parts and rows is the one that it writes.
#[test]
fn the_design_and_the_rows_are_those_that_are_written() {
    let mut rows = 0;
    examples_and_generated(|desk| {
        let design = desk.design();
        let mut builder = Builder::new();
        for table in &design.tables {
            let column = |column| match table.is_unique(column) {
                true => Named::Unique("unique"),
                false => Named::Plain("plain"),
            };
            let columns: Vec<Named> = (0..table.columns).map(column).collect();
            builder.table_of("table", &columns);
        }
        for &Constraint { source, target } in &design.constraints {
            builder.constraint(source, target);
        }
        for &Filling { column, low, high } in &design.fillings {
            builder.filling(column, low..=high);
        }
        for (number, row) in desk.rows() {
            assert_eq!(desk.row(number), Some(row));
            builder.row(row);
            rows += 1;
        }
        assert_eq!(builder.script(), desk.write());
        let counts = desk.counts();
        assert_eq!(counts.tables, design.tables.len());
        assert_eq!(counts.rows, desk.rows().count());
    });
    assert!(rows > 10_000, "only {rows} rows");
}

/// What is said to be held can be dropped, and nothing is cached without it.
#[test]
fn what_is_held_can_be_dropped() {
    let (mut values, mut ranges) = (0, 0);
    examples_and_generated(|desk| {
        let mut desk = desk.clone();
        for held in desk.held() {
            desk.name_desk(held.desk).expect("a desk");
            desk.drop_value(held.filling, held.value)
                .expect("it is held");
            values += 1;
        }
        for number in 0..4 {
            desk.name_desk(number).expect("a desk");
            for range in desk.ranges(number) {
                desk.release_range(range).expect("it is held");
                ranges += 1;
            }
            assert!(desk.ranges(number).is_empty());
        }
        assert!(desk.held().is_empty());
        assert_eq!(desk.cached().next(), None);
    });
    assert!(
        values > 500 && ranges > 50,
        "{values} values, {ranges} ranges"
    );
}

/// Each step of a reason is a demand of the design on the rows, and ends at what is held.
#[test]
fn each_step_of_a_reason_is_a_demand() {
    let (steps, origins) = (Cell::new(0), [Cell::new(0), Cell::new(0)]);
    at_the_end(|desk| {
        for (number, _) in desk.rows() {
            match desk.reason(number).expect("there is such a row") {
                Reasoned::Reason(reason) => {
                    assert!(desk.is_cached(number) && reason.row() == number);
                    hold_to_rows(desk, &reason);
                    steps.set(steps.get() + reason.steps().len());
                    let range = matches!(reason.origin(), Origin::Range(_));
                    let origin = &origins[usize::from(range)];
                    origin.set(origin.get() + 1);
                }
                Reasoned::Absent => assert!(!desk.is_cached(number)),
            }
        }
        let cached = desk.rows().filter(|&(number, _)| desk.is_cached(number));
        assert_eq!(cached.count(), desk.cached().count());
    });
    assert!(
        steps.get() > 1_000 && origins.iter().all(|count| count.get() > 99),
        "{steps:?}, {origins:?}"
    );
}

fn hold_to_rows(desk: &Desk, reason: &Reason) {
    let design = desk.design();
    let cell = |row: u16, column: wurzsige::Column| -> Value {
        let row = desk.row(row).expect("a row");
        assert_eq!(row.table, column.table);
        row.cells[usize::from(column.column)]
    };
    let mut row = reason.row();
    for step in reason.steps() {
        let Constraint { source, target } = design.constraints[usize::from(step.constraint)];
        let demanded = cell(row, target);
        assert_eq!(cell(step.row, source), demanded, "{reason}");
        assert_ne!(demanded.number, 0, "{reason}");
        row = step.row;
    }
    match reason.origin() {
        Origin::Value { filling, value } => {
            let column = design.fillings[usize::from(filling)].column;
            assert_eq!(cell(row, column), value, "{reason}");
            let mut held = desk.held().into_iter();
            assert!(held.any(|held| (held.filling, held.value) == (filling, value)));
        }
        Origin::Range(range) => {
            let column = design.fillings[usize::from(range.filling)].column;
            let Value { number, issue } = cell(row, column);
            assert!(
                issue == 0 && (range.low..=range.high).contains(&number),
                "{reason}"
            );
            assert!(
                (0..4).any(|desk_| desk.ranges(desk_).contains(&range)),
                "{reason}"
            );
        }
    }
}

#[test]
fn numbers_that_name_nothing_have_nothing() {
    let mut desk = opened("table 1\nfilling 0.0 1..9\nrow 0 3\nend\n");
    desk.hold_range(Range {
        filling: 0,
        low: 1,
        high: 9,
    })
    .expect("a range");
    assert_eq!(
        (desk.row(1), desk.row(512), desk.row(u16::MAX)),
        (None, None, None)
    );
    assert!(!desk.is_cached(1) && !desk.is_cached(512));
    let ranges: Vec<usize> = [0, 1, 3, 4, 255]
        .map(|number| desk.ranges(number).len())
        .to_vec();
    assert_eq!(ranges, [1, 0, 0, 0, 0]);
}

/// Questions may be put while a desk is looked through.
#[test]
fn questions_take_no_turn_from_each_other() {
    let mut desk = opened("table 1\nfilling 0.0 1..9\nrow 0 3\nrow 0 4\nend\n");
    desk.refer(0, 3).expect("a load");
    let column = wurzsige::Column::new(0, 0);
    let answers = desk.rows().map(|(number, row)| {
        let probed = desk.probe(column, row.cells[0]).expect("a value");
        (
            number,
            probed,
            desk.reason(number).expect("a row"),
            desk.knot(),
        )
    });
    assert_eq!(answers.count(), 2);
    fn is_send<T: Send>(_: &T) {}
    is_send(&desk);
}
