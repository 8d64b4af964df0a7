//! Every operation as a method, held to the same command as bytes.

#![cfg(feature = "proved")]

mod common;

use common::{all_examples, kept, opened};
use compare::generate;
use notation::{Command, Piece, Put, split};
use wurzsige::{
    Answer, Answered, Cause, Changed, Column, Desk, Dropped, Evenness, Knot, Opener, Probed, Query,
    Range, Reasoned, Referred, Refusal, Row, Totalled, Value,
};

fn value(value: notation::Value) -> Value {
    (value.number, value.issue()).into()
}

fn column(column: notation::Column) -> Column {
    Column::new(column.table, column.column)
}

fn range(range: &notation::Range) -> Range {
    let notation::Range { filling, low, high } = *range;
    Range { filling, low, high }
}

/// A query, unless its bytes say something that no query of the library does.
fn query(query: &notation::Query) -> Option<Query> {
    let joins = query.plain_joins()?.iter();
    let start = Query::new(column(query.column), value(query.value));
    Some(joins.fold(start, |query, join| {
        query.join(join.position, join.constraint)
    }))
}

/// An answer of a method as an answer of any operation.
fn answer<T>(answer: Result<T, Refusal>, of: impl Fn(T) -> Answer) -> Answer {
    answer.map_or_else(Answer::Refused, of)
}

/// Holds an answer by a method to the same command's as bytes. Of a refusal the method
/// tells no place, but an operand: exactly for the causes that are an operand's.
fn hold_to_step(answer: &Answer, step: &Answer, command: &Command) {
    let (Answer::Refused(refusal), Answer::Refused(of_step)) = (answer, step) else {
        return assert_eq!(answer, step, "{command:?}");
    };
    assert_eq!(refusal.cause, of_step.cause, "{command:?}");
    assert_eq!((of_step.place, of_step.operand), (Some(0), None));
    assert_eq!(refusal.place, None, "{command:?}");
    let causes = [
        Cause::WrongOperand,
        Cause::ValueTwice,
        Cause::ValueZero,
        Cause::NotHeld,
    ];
    let operand = causes.contains(&refusal.cause);
    assert_eq!(refusal.operand.is_some(), operand, "{command:?}: {refusal}");
    assert!(!refusal.to_string().contains("byte"), "{refusal}");
}

fn referred(referred: Referred) -> Answer {
    match referred {
        Referred::Loaded { rows, rounds } => Answer::Loaded { rows, rounds },
        Referred::Held => Answer::Held,
        Referred::NoCandidate => Answer::NoCandidate,
    }
}

fn dropped(Dropped { rows }: Dropped) -> Answer {
    Answer::Dropped { rows }
}

fn changed(Changed { came, went }: Changed) -> Answer {
    Answer::Changed { came, went }
}

fn probed(probed: Probed) -> Answer {
    match probed {
        Probed::Ground { ground, rows } => Answer::Ground { ground, rows },
        Probed::Sent => Answer::Sent,
    }
}

fn answered(answered: Answered) -> Answer {
    match answered {
        Answered::Lists(lists) => Answer::Lists(lists),
        Answered::Sent => Answer::Sent,
    }
}

fn totalled(totalled: Totalled) -> Answer {
    match totalled {
        Totalled::Total(total) => Answer::Total(total),
        Totalled::Sent => Answer::Sent,
    }
}

fn reasoned(reasoned: Reasoned) -> Answer {
    match reasoned {
        Reasoned::Reason(reason) => Answer::Reason(reason),
        Reasoned::Absent => Answer::Absent,
    }
}

fn opener(opener: Opener) -> Answer {
    match opener {
        Opener::Open => Answer::Open,
        Opener::Value { filling, value } => Answer::Opener { filling, value },
        Opener::None => Answer::NoOpener,
    }
}

/// Carries a command out by its method, if there is one for it, with as many words as a
/// step is lent.
fn by_method(desk: &mut Desk, command: &Command) -> Option<Answer> {
    Some(match command {
        Command::Refer(pair) => answer(desk.refer(pair.filling, value(pair.value)), referred),
        Command::Drop(pair) => answer(desk.drop_value(pair.filling, value(pair.value)), dropped),
        Command::Probe(probe) => {
            answer(desk.probe(column(probe.column), value(probe.value)), probed)
        }
        Command::Query(asked) => answer(desk.query_within(&query(asked)?, 4_096), answered),
        Command::Total(total) => {
            let total = desk.total(&query(&total.query)?, total.position, total.column);
            answer(total, totalled)
        }
        Command::Even => match desk.evenness() {
            Evenness::Even => Answer::Even,
            Evenness::Uneven { i, j } => Answer::Uneven { i, j },
        },
        Command::Knot => match desk.knot() {
            Knot::Even => Answer::Even,
            Knot::Constraints(constraints) => Answer::Knot(constraints),
        },
        Command::Desk(number) => answer(desk.name_desk(*number), |()| Answer::Desk(*number)),
        Command::Reason(row) => answer(desk.reason(*row), reasoned),
        Command::Hold(held) => answer(desk.hold_range(range(held)), referred),
        Command::Release(held) => answer(desk.release_range(range(held)), dropped),
        Command::Put(Put { number, row }) => {
            let cells = std::array::from_fn(|column| value(row.cell(column)));
            let row = Row {
                table: row.table,
                cells,
            };
            answer(desk.put_row(*number, &row), changed)
        }
        Command::Take(number) => answer(desk.remove_row(*number), changed),
        Command::Opener(probe) => answer(
            desk.opener(column(probe.column), value(probe.value)),
            opener,
        ),
        Command::Table(_)
        | Command::Constraint(_)
        | Command::Filling(_)
        | Command::Row(_)
        | Command::End => return None,
    })
}

/// Goes through a script's operations by methods on one desk and by steps on another.
/// Counts the operations.
fn hold_methods_to_steps(script: &[u8]) -> usize {
    let Ok(mut desk) = Desk::open(script) else {
        return 0;
    };
    let mut other = desk.clone();
    let mut count = 0;
    for piece in split(&script[desk.operations_at()..]) {
        let Piece::Command(command) = piece else {
            break;
        };
        let bytes = command.bytes();
        // An operation without a method is taken by both as bytes.
        let answer = by_method(&mut desk, &command);
        let step = other.step(&bytes, 0);
        match answer {
            Some(answer) => hold_to_step(&answer, &step.answer, &command),
            None => assert_eq!(desk.step(&bytes, 0), step),
        }
        assert_eq!((step.next, step.more), (bytes.len(), true), "{command:?}");
        assert_eq!(desk.named_desk(), other.named_desk());
        count += 1;
    }
    assert!(kept(&desk) == kept(&other));
    count
}

#[test]
fn the_examples_operations_do_the_same_by_methods() {
    for example in all_examples() {
        assert!(hold_methods_to_steps(&example.script) > 0);
    }
}

#[test]
fn generated_operations_do_the_same_by_methods() {
    let count: usize = (0..400)
        .map(|number| hold_methods_to_steps(&generate::script(12, number)))
        .sum();
    assert!(count > 2_000, "only {count} operations");
}

const CHAIN: &str = "table 2 unique 0\nconstraint 0.1 -> 0.0\nfilling 0.0 1..9\n\
                     row 0 1 2\nrow 0 2 3\nrow 0 3 -\nend\n";

#[test]
fn what_a_desk_has_can_be_looked_at() {
    let mut desk = opened(CHAIN);
    assert_eq!(desk.counts().to_string(), "design 1 1 1 3");
    desk.refer(0, 2).expect("a load");
    let cached: Vec<bool> = (0..4).map(|row| desk.is_cached(row)).collect();
    assert_eq!(cached, [false, true, true, false]);
    assert!(!desk.is_cached(512) && desk.row(512).is_none());
    assert_eq!(desk.row(2), Some(Row::new(0, [3])));
    desk.remove_row(1).expect("a row");
    assert_eq!((desk.row(1), desk.counts().rows), (None, 2));
}

#[test]
fn more_than_four_joins_are_refused() {
    let mut desk = opened(CHAIN);
    let mut query = Query::new(Column::new(0, 0), 1);
    for joins in 0..300_usize {
        let refused = desk.query(&query).err().map(|refusal| refusal.cause);
        let expected = (joins > 4).then_some(Cause::WrongOperand);
        assert_eq!(refused, expected, "{joins} joins");
        query = query.join(joins.min(3) as u8, 0);
    }
}
