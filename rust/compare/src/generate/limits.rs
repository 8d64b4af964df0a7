//! Scripts at the largest counts and just past them.

use std::mem::discriminant;

use notation::{encode, Column, Command, Constraint, Design, Filling, Join, Pair, Query, Table};

use super::design::{Draft, Shape, Values};
use super::fetching::around;
use super::operations::{Operator, DESKS};
use super::spoil::spoil;
use super::with_operations;
use crate::random::Random;

const LONGEST_SCRIPT: usize = 65_536;

/// Eight or nine tables, sixteen or seventeen constraints, or eight or nine
/// fillings.
pub fn design_counts(random: &mut Random) -> Vec<u8> {
    let at_limits = || Shape {
        tables: 8..=8,
        columns: 1..=8,
        constraints: 16..=16,
        fillings: 8..=8,
        rows: 0..=30,
        values: 1..=12,
        unique: 25,
    };
    let shape = match random.below(4) {
        0 => Shape {
            tables: 9..=9,
            ..at_limits()
        },
        1 => Shape {
            constraints: 17..=17,
            columns: 2..=8,
            ..at_limits()
        },
        2 => Shape {
            fillings: 9..=9,
            columns: 2..=8,
            ..at_limits()
        },
        _ => at_limits(),
    };
    counted(random, &shape, 20)
}

/// 511 to 513 rows.
pub fn rows(random: &mut Random) -> Vec<u8> {
    let shape = Shape {
        rows: 511..=513,
        constraints: 0..=3,
        values: 2..=400,
        ..Shape::SPARSE
    };
    counted(random, &shape, 12)
}

/// A design of the shape with operations. Sometimes the last of its tables,
/// constraints, fillings or rows has a wrong operand too: a count that is
/// passed goes before that.
fn counted(random: &mut Random, shape: &Shape, operations: usize) -> Vec<u8> {
    let draft = Draft::random(random, shape);
    let mut commands = draft.design.commands();
    if random.percent(50) {
        let place = *random.pick(&last_of_each_kind(&commands));
        commands[place] = spoil(random, &draft.design, commands[place]);
    }
    with_operations(random, &draft, commands, operations)
}

fn last_of_each_kind(commands: &[Command]) -> Vec<usize> {
    let is_last = |place: &usize| {
        let next = commands.get(place + 1);
        next.map(discriminant) != Some(discriminant(&commands[*place]))
    };
    (0..commands.len()).filter(is_last).collect()
}

/// 14 to 18 loads of different values before any other operation, by one desk or
/// by each of some.
pub fn held_values(random: &mut Random) -> Vec<u8> {
    let shape = Shape {
        fillings: 1..=1,
        values: 16..=80,
        ..Shape::SPARSE
    };
    let mut draft = Draft::random(random, &shape);
    let (low, high) = *random.pick(&[(1, u32::MAX), (1, 99), (u32::MAX - 98, u32::MAX)]);
    let candidates = &mut draft.design.fillings[0];
    (candidates.low, candidates.high) = (low, high);
    let mut commands = draft.design.commands();
    let mut desks: Vec<u8> = (0..DESKS as u8).collect();
    random.shuffle(&mut desks);
    desks.truncate(random.within(1..=DESKS));
    let mut first = low;
    for desk in desks {
        let count = random.within(14..=18) as u32;
        commands.push(Command::Desk(desk));
        commands.extend((first..first + count).map(refer));
        // The next desk may hold some of these too.
        first = (first + random.below(19) as u32).min(high - 18);
    }
    with_operations(random, &draft, commands, 30)
}

/// A query whose lists need about as many words as are lent. Position p is a
/// row of table p, and every row of a table fits.
pub fn answer_words(random: &mut Random) -> Vec<u8> {
    const SIZES: [&[usize]; 12] = [
        &[64, 32],
        &[50, 41],
        &[13, 15, 7],
        &[8, 9, 19],
        &[2, 8, 8, 8],
        &[5, 5, 41, 1],
        &[3, 3, 7, 13, 1],
        &[2, 2, 5, 41, 1],
        &[30, 30, 30, 30, 30],
        &[9, 9, 9, 9, 0],
        &[0, 9, 9],
        &[70],
    ];
    let sizes = *random.pick(&SIZES);
    let joins: Vec<Join> = (1..sizes.len() as u8).map(star_join).collect();
    let query = Query::new(first_column(0), 1, &joins);
    let draft = Draft {
        design: star(sizes),
        values: Values::new(1, false),
    };
    let operations = around(random, query, Command::Query(query));
    let commands = [draft.design.commands(), operations].concat();
    with_operations(random, &draft, commands, 5)
}

/// Exactly the longest script, a byte less, a byte more, or far more.
pub fn script_length(random: &mut Random) -> Vec<u8> {
    let length = *random.pick(&[
        LONGEST_SCRIPT - 1,
        LONGEST_SCRIPT,
        LONGEST_SCRIPT + 1,
        LONGEST_SCRIPT + 5_000,
    ]);
    let draft = Draft::random(random, &Shape::SPARSE);
    let mut operator = Operator::new(&draft);
    let mut script = encode(&draft.design.commands());
    loop {
        let operation = operator.operation(random).bytes();
        if script.len() + operation.len() > length {
            break;
        }
        script.extend(operation);
    }
    while script.len() < length {
        script.extend(Command::End.bytes());
    }
    script
}

fn refer(number: u32) -> Command {
    let value = number.into();
    Command::Refer(Pair { filling: 0, value })
}

/// Tables of one column and of the given sizes, with 1 in every row and a
/// constraint from table 0 to each other table.
fn star(sizes: &[usize]) -> Design {
    let mut design = Design::default();
    for (table, size) in (0..).zip(sizes) {
        design.tables.push(Table {
            columns: 1,
            unique: 0,
        });
        for _ in 0..*size {
            design.add_row(table, &[1]);
        }
    }
    for table in 1..sizes.len() as u8 {
        design.constraints.push(Constraint {
            source: first_column(0),
            target: first_column(table),
        });
    }
    design.fillings.push(Filling {
        column: first_column(0),
        low: 1,
        high: 1,
    });
    design
}

/// The join from position 0 to a table of a star.
fn star_join(table: u8) -> Join {
    Join {
        position: 0,
        constraint: table - 1,
    }
}

fn first_column(table: u8) -> Column {
    Column { table, column: 0 }
}
