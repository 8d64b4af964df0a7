//! Bytes to text and back, for short byte strings and damaged commands.

use notation::{
    assemble, disassemble, encode, Column, Command, Constraint, Filling, Join, Pair, Probe, Put,
    Query, Range, Row, Table, Total, Value,
};

fn assert_round_trip(script: &[u8]) {
    let text = disassemble(script);
    assert_eq!(assemble(&text).as_deref(), Ok(script), "{text}");
}

fn one_of_each() -> Vec<Command> {
    let column = Column {
        table: 1,
        column: 2,
    };
    let join = Join {
        position: 0,
        constraint: 3,
    };
    let value = Value::from(2);
    let issued = Value::new(2, 3);
    let pair = Pair { filling: 1, value };
    let issued_pair = Pair {
        filling: 1,
        value: issued,
    };
    let range = Range {
        filling: 1,
        low: 2,
        high: 70_000,
    };
    let cells = [1, 0, 70_000, 0, u32::MAX];
    let issued_cells = [1, 0, 3].map(|number| Value::new(number, number as u8));
    vec![
        Command::Table(Table {
            columns: 3,
            unique: 5,
        }),
        Command::Constraint(Constraint {
            source: column,
            target: column,
        }),
        Command::Filling(Filling {
            column,
            low: 1,
            high: 99,
        }),
        Command::Row(Row::new(1, &cells)),
        Command::Row(Row::new(1, &issued_cells)),
        Command::End,
        Command::Refer(pair),
        Command::Drop(pair),
        Command::Refer(issued_pair),
        Command::Drop(issued_pair),
        Command::Probe(Probe { column, value }),
        Command::Probe(Probe {
            column,
            value: issued,
        }),
        Command::Query(Query::new(column, value, &[join, join])),
        Command::Query(Query::new(column, issued, &[join, join])),
        Command::Even,
        Command::Total(Total {
            query: Query::new(column, 2, &[join]),
            position: 1,
            column: 7,
        }),
        Command::Total(Total {
            query: Query::new(column, issued, &[join]),
            position: 1,
            column: 7,
        }),
        Command::Knot,
        Command::Desk(3),
        Command::Reason(300),
        Command::Hold(range),
        Command::Release(range),
        Command::Put(Put {
            number: 300,
            row: Row::new(1, &issued_cells),
        }),
        Command::Take(300),
        Command::Opener(Probe {
            column,
            value: issued,
        }),
    ]
}

#[test]
fn all_strings_of_up_to_two_bytes() {
    assert_round_trip(&[]);
    for first in 0..=255 {
        assert_round_trip(&[first]);
        for second in 0..=255 {
            assert_round_trip(&[first, second]);
        }
    }
}

#[test]
fn every_beginning_of_a_script() {
    let script = encode(&one_of_each());
    for length in 0..=script.len() {
        assert_round_trip(&script[..length]);
    }
}

#[test]
fn every_changed_byte_of_a_script() {
    let script = encode(&one_of_each());
    for place in 0..script.len() {
        for byte in 0..=255 {
            let mut changed = script.clone();
            changed[place] = byte;
            assert_round_trip(&changed);
        }
    }
}
