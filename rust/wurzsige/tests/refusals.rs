//! What is refused, and that it leaves the desk as it was.

#![cfg(feature = "proved")]

mod common;

use common::{kept, opened};
use wurzsige::{
    Answer, Answered, Cause, Column, Desk, Operand, Query, Range, Refusal, Row, Step, Totalled,
    Value,
};

/// Two tables, a unique column in the first, and cells that pass 2^64 when added up over
/// many lists.
fn desk() -> Desk {
    let mut text = String::from(
        "table 2 unique 0\ntable 2\nconstraint 0.1 -> 1.0\nconstraint 1.0 -> 1.0\n\
         filling 0.1 1..99\nfilling 1.0 1..99\nrow 0 7 3\nrow 0 8 4\n",
    );
    for _ in 0..100 {
        text += "row 1 3 4294967295\n";
    }
    opened(&(text + "end\n"))
}

/// An operation that is refused names its operand, and changes nothing that the desk keeps.
fn refused<T: std::fmt::Debug>(
    desk: &mut Desk,
    cause: Cause,
    operand: impl Into<Option<Operand>>,
    operation: impl Fn(&mut Desk) -> Result<T, Refusal>,
) {
    let before = kept(desk);
    let refusal = operation(desk).expect_err("a refusal");
    assert_eq!((refusal.cause, refusal.place), (cause, None));
    assert_eq!(refusal.operand, operand.into());
    assert!(kept(desk) == before, "{refusal}");
}

#[test]
fn refused_operations_leave_the_desk_as_it_was() {
    let mut desk = desk();
    desk.refer(1, 3).expect("a load");
    let whole = Range {
        filling: 0,
        low: 5,
        high: 9,
    };
    desk.hold_range(whole).expect("a range");
    let [ward, event] = [Column::new(0, 1), Column::new(1, 0)];

    refused(
        &mut desk,
        Cause::WrongOperand,
        Operand::Filling(2),
        |desk| desk.refer(2, 3),
    );
    refused(
        &mut desk,
        Cause::ValueZero,
        Operand::Value(0.into()),
        |desk| desk.refer(0, 0),
    );
    refused(
        &mut desk,
        Cause::ValueZero,
        Operand::Value((0, 1).into()),
        |desk| desk.refer(0, (0, 1)),
    );
    refused(
        &mut desk,
        Cause::NotHeld,
        Operand::Value(3.into()),
        |desk| desk.drop_value(0, 3),
    );
    refused(
        &mut desk,
        Cause::NotHeld,
        Operand::Value((3, 1).into()),
        |desk| desk.drop_value(1, (3, 1)),
    );
    refused(
        &mut desk,
        Cause::WrongOperand,
        Operand::Column(Column::new(0, 2)),
        |desk| desk.probe(Column::new(0, 2), 3),
    );
    refused(
        &mut desk,
        Cause::ValueZero,
        Operand::Value(0.into()),
        |desk| desk.opener(ward, 0),
    );
    refused(&mut desk, Cause::WrongOperand, Operand::Desk(4), |desk| {
        desk.name_desk(4)
    });
    refused(&mut desk, Cause::WrongOperand, Operand::Row(102), |desk| {
        desk.reason(102)
    });
    let part = Range { high: 8, ..whole };
    refused(&mut desk, Cause::NotHeld, Operand::Range(part), |desk| {
        desk.release_range(part)
    });
    let turned = Range { low: 10, ..whole };
    refused(&mut desk, Cause::WrongOperand, Operand::High(9), |desk| {
        desk.hold_range(turned)
    });
    let twice = Row::new(0, [8, 3]);
    refused(&mut desk, Cause::ValueTwice, Operand::Cell(0), |desk| {
        desk.put_row(200, &twice)
    });
    let taken = Row::new(0, [9, 3]);
    refused(&mut desk, Cause::WrongOperand, Operand::Row(0), |desk| {
        desk.put_row(0, &taken)
    });
    let issue_on_a_blank = Row::new(1, [Value::from(3), (0, 1).into()]);
    refused(&mut desk, Cause::WrongOperand, Operand::Cell(1), |desk| {
        desk.put_row(200, &issue_on_a_blank)
    });
    refused(&mut desk, Cause::WrongOperand, Operand::Row(102), |desk| {
        desk.remove_row(102)
    });

    // Ward 3 isn't held yet: what these refer first has to be undone.
    let joined = Query::new(ward, 3).join(0, 0).join(1, 1).join(2, 1);
    refused(&mut desk, Cause::AnswerTooLong, None, |desk| {
        desk.query(&joined)
    });
    let all = joined.clone().join(3, 1);
    refused(&mut desk, Cause::AnswerTooLong, None, |desk| {
        desk.query(&all)
    });
    let values = Query::new(event, 3).join(0, 1).join(1, 1).join(2, 1);
    refused(
        &mut desk,
        Cause::WrongOperand,
        Operand::Position(4),
        |desk| desk.total(&values, 4, 1),
    );
    let too_large = values.join(3, 1);
    refused(&mut desk, Cause::TotalTooLarge, None, |desk| {
        desk.total(&too_large, 4, 1)
    });
    let total = desk.total(&all, 0, 1).expect("a total");
    assert_eq!(total, Totalled::Total(3 * 100_u64.pow(4)));
}

/// The operands of queries and totals, and those of rows and ranges that aren't above.
#[test]
fn every_wrong_operand_has_its_name() {
    let mut desk = desk();
    let (wrong, ward) = (Cause::WrongOperand, Column::new(0, 1));
    let query = Query::new(ward, 3);
    let many = (0..5).fold(query.clone(), |query, _| query.join(0, 0));
    refused(&mut desk, wrong, Operand::Joins(5), |desk| {
        desk.query(&many)
    });
    let early = query.clone().join(0, 0).join(2, 1);
    let operand = Operand::JoinPosition {
        join: 1,
        position: 2,
    };
    refused(&mut desk, wrong, operand, |desk| desk.query(&early));
    let constraint = |join, constraint| Operand::JoinConstraint { join, constraint };
    let nowhere = query.clone().join(0, 2);
    refused(&mut desk, wrong, constraint(0, 2), |desk| {
        desk.query(&nowhere)
    });
    let from_the_wrong_table = query.clone().join(0, 0).join(0, 1);
    refused(&mut desk, wrong, constraint(1, 1), |desk| {
        desk.total(&from_the_wrong_table, 0, 0)
    });
    refused(&mut desk, wrong, Operand::CellColumn(2), |desk| {
        desk.total(&query, 0, 2)
    });
    refused(&mut desk, wrong, Operand::Position(1), |desk| {
        desk.total(&query, 1, 0)
    });
    let other = Query::new(Column::new(2, 0), 3);
    refused(&mut desk, wrong, Operand::Table(2), |desk| {
        desk.query(&other)
    });
    let zero = Query::new(ward, (0, 7));
    refused(
        &mut desk,
        Cause::ValueZero,
        Operand::Value((0, 7).into()),
        |desk| desk.total(&zero, 0, 0),
    );
    let range = |filling, low, high| Range { filling, low, high };
    refused(&mut desk, wrong, Operand::Low(0), |desk| {
        desk.hold_range(range(0, 0, 9))
    });
    refused(&mut desk, wrong, Operand::Filling(2), |desk| {
        desk.release_range(range(2, 1, 9))
    });
    let row = |table, cells| Row::new(table, cells);
    refused(&mut desk, wrong, Operand::Row(512), |desk| {
        desk.put_row(512, &row(0, [9, 9]))
    });
    refused(&mut desk, wrong, Operand::Table(2), |desk| {
        desk.put_row(200, &row(2, [9, 9]))
    });
    refused(&mut desk, wrong, Operand::Cell(2), |desk| {
        desk.put_row(200, &Row::new(0, [9, 9, 9]))
    });
}

/// Blanks are never twice, and a number with another issue is another value.
#[test]
fn the_cell_that_is_there_twice_is_named() {
    let design = "table 2 unique 0 1\nrow 0 - 5\nrow 0 7 6\nend\n";
    let mut desk = opened(design);
    let first = [(7, 0), (5, 0)];
    for (cells, column) in [
        (first, 0),
        ([(0, 0), (5, 0)], 1),
        ([(7, 1), (5, 0)], 1),
        ([(5, 0), (6, 0)], 1),
    ] {
        let row = Row::new(0, cells);
        let operand = Operand::Cell(column);
        refused(&mut desk, Cause::ValueTwice, operand, |desk| {
            desk.put_row(9, &row)
        });
    }
    let other = Row::new(0, [(7, 1), (5, 1)]);
    assert!(desk.put_row(9, &other).is_ok());
}

#[test]
fn a_full_desk_refuses_one_value_more() {
    let mut desk = desk();
    for number in 10..26 {
        desk.refer(0, number).expect("a load");
    }
    refused(&mut desk, Cause::NoPlaceFree, None, |desk| {
        desk.refer(0, 26)
    });
    let ward = Query::new(Column::new(0, 1), 26);
    assert_eq!(desk.query(&ward), Ok(Answered::Sent));
    for range in 0..8 {
        let low = 30 + 2 * range;
        let one = Range {
            filling: 0,
            low,
            high: low,
        };
        desk.hold_range(one).expect("a range");
    }
    let ninth = Range {
        filling: 0,
        low: 60,
        high: 60,
    };
    refused(&mut desk, Cause::NoPlaceFree, None, |desk| {
        desk.hold_range(ninth)
    });
    desk.name_desk(1).expect("a desk");
    assert!(desk.refer(0, 26).is_ok() && desk.hold_range(ninth).is_ok());
}

#[test]
fn refused_steps_tell_their_place_and_leave_the_desk_as_it_was() {
    let mut desk = desk();
    desk.refer(0, 3).expect("a load");
    let before = kept(&desk);
    let step = |cause, place, next, more| (cause, Some(place), next, more);
    let taken = |step: Step| match step.answer {
        Answer::Refused(refusal) => (refusal.cause, refusal.place, step.next, step.more),
        answer => panic!("{answer}"),
    };
    let script = [0x14, 0x05, 0x17, 9, 0x10, 0, 0xff];
    assert_eq!(
        taken(desk.step(&script, 1)),
        step(Cause::OutOfOrder, 1, 2, true)
    );
    assert_eq!(
        taken(desk.step(&script, 2)),
        step(Cause::WrongOperand, 2, 4, true)
    );
    assert_eq!(
        taken(desk.step(&script, 4)),
        step(Cause::TooFewBytes, 4, 4, false)
    );
    assert_eq!(
        taken(desk.step(&script, 6)),
        step(Cause::UnknownCommand, 6, 6, false)
    );
    assert_eq!(
        taken(desk.step(&script, 7)),
        step(Cause::TooFewBytes, 7, 7, false)
    );
    let far = usize::MAX;
    assert_eq!(
        taken(desk.step(&script, far)),
        step(Cause::TooFewBytes, 7, far, false)
    );
    let long = vec![0x14; 65_537];
    assert_eq!(
        taken(desk.step(&long, 3)),
        step(Cause::TooMany, 0, 3, false)
    );
    assert!(kept(&desk) == before);
}

#[test]
fn causes_have_the_document_s_numbers() {
    let numbers: Vec<u8> = Cause::ALL.iter().map(|cause| cause.number()).collect();
    assert_eq!(numbers, (1..=13).chain([255]).collect::<Vec<u8>>());
    for &cause in Cause::ALL {
        assert_eq!(Cause::with_number(cause.number()), Some(cause));
        assert!(!cause.to_string().is_empty());
    }
    assert_eq!(
        (Cause::with_number(0), Cause::with_number(14)),
        (None, None)
    );
}
