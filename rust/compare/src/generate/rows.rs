//! Rows that come and go while values and ranges are held.

use notation::{encode, Command, Pair, Put, Query, Row};

use super::design::{Draft, Shape};
use super::extremes::every_value;
use super::operations::Operator;
use super::spoil::spoil;
use super::with_operations;
use crate::random::Random;

/// In how many of a hundred cases a command is spoilt, beside those that are anyway.
const SPOILT: usize = 6;

/// Rows that come and go among loads and questions on them.
pub fn coming_and_going(random: &mut Random) -> Vec<u8> {
    let shape = Shape {
        tables: 1..=3,
        constraints: 1..=6,
        fillings: 1..=3,
        rows: 0..=16,
        values: 4..=16,
        unique: 20,
        ..Shape::SPARSE
    };
    let count = random.within(6..=36);
    moving(random, &shape, count)
}

/// Hundreds of rows that come and go, while desks hold values and ranges.
pub fn hundreds(random: &mut Random) -> Vec<u8> {
    let shape = Shape {
        tables: 1..=3,
        columns: 2..=3,
        constraints: 1..=4,
        fillings: 1..=3,
        rows: 0..=40,
        values: 12..=60,
        unique: 20,
    };
    let count = random.within(350..=500);
    moving(random, &shape, count)
}

/// Some loads, and then operations, more than half of which move rows: on a design of a
/// shape, or on a ring.
fn moving(random: &mut Random, shape: &Shape, count: usize) -> Vec<u8> {
    let draft = if random.percent(50) {
        Draft::random(random, shape)
    } else {
        let rows = random.within(shape.rows.clone()).max(2);
        Draft::ring(random, rows, 10)
    };
    let mut operator = Operator::new(&draft);
    let mut commands = draft.design.commands();
    for _ in 0..random.below(5) {
        commands.push(Command::Refer(operator.refer(random)));
    }
    for _ in 0..count {
        let command = match random.below(24) {
            0..=8 => operator.put(random),
            9..=14 => operator.take(random),
            15 | 16 => Command::Refer(operator.refer(random)),
            17 => Command::Hold(operator.hold(random)),
            18 => operator.reason(random),
            19 => operator.name(random),
            _ => operator.operation(random),
        };
        commands.push(if random.percent(SPOILT) {
            spoil(random, &draft.design, command)
        } else {
            command
        });
    }
    encode(&commands)
}

/// A ring of many rows that is loaded, broken by taking a row out, and closed again, at
/// the same number or at another.
pub fn broken_ring(random: &mut Random) -> Vec<u8> {
    let rows = random.within(2..=511);
    let mut draft = Draft::ring(random, rows, 0);
    let column = draft.design.fillings[0].column;
    draft.design.fillings[0] = every_value(column);
    let value = draft.values.get(0);
    let mut commands = draft.design.commands();
    commands.push(Command::Refer(Pair { filling: 0, value }));
    for _ in 0..random.within(1..=3) {
        let number = random.within(1..=3).min(rows - 1);
        let row = draft.design.rows[number];
        commands.push(Command::Take(number as u16));
        if random.percent(30) {
            commands.push(Command::Query(Query::new(column, row.cell(0), &[])));
        }
        let number = if random.percent(50) { number } else { rows } as u16;
        commands.push(Command::Put(Put { number, row }));
        commands.push(Command::Take(number));
        commands.push(Command::Put(Put { number, row }));
        commands.push(Command::Reason(number));
    }
    with_operations(random, &draft, commands, 3)
}

/// 510 to 512 rows, one of which goes and comes again, while another has no number left.
pub fn all_numbers(random: &mut Random) -> Vec<u8> {
    let shape = Shape {
        rows: 510..=512,
        constraints: 0..=2,
        fillings: 1..=2,
        values: 2..=300,
        unique: 10,
        ..Shape::SPARSE
    };
    let draft = Draft::random(random, &shape);
    let mut operator = Operator::new(&draft);
    let mut commands = draft.design.commands();
    commands.push(Command::Refer(operator.refer(random)));
    for _ in 0..random.within(3..=10) {
        let number = random.below(512) as u16;
        let row: Row = *random.pick(&draft.design.rows);
        commands.push(match random.below(4) {
            0 => Command::Take(number),
            1 => Command::Put(Put { number, row }),
            2 => operator.put(random),
            _ => operator.take(random),
        });
    }
    encode(&commands)
}

#[cfg(test)]
mod tests {
    use super::*;

    /// The numbers behind `rows` in the reports of so many scripts.
    fn moves(make: fn(&mut Random) -> Vec<u8>, scripts: u64) -> Vec<(usize, usize)> {
        let report = |number| reference::report(&make(&mut Random::new(1, number)));
        let mut moves = Vec::new();
        for report in (0..scripts).map(report) {
            for line in report.lines() {
                if let [_, "rows", came, went] = line.split(' ').collect::<Vec<_>>()[..] {
                    let number = |word: &str| word.parse().expect("a number");
                    moves.push((number(came), number(went)));
                }
            }
        }
        moves
    }

    #[test]
    fn rows_come_and_go() {
        let moves = moves(coming_and_going, 200);
        let count = |test: fn(&(usize, usize)) -> bool| moves.iter().filter(|m| test(m)).count();
        let counts = [
            count(|m| *m == (0, 0)),
            count(|m| m.0 > 0),
            count(|m| m.1 > 0),
            count(|m| m.0 > 1),
            count(|m| m.1 > 1),
        ];
        assert!(counts.iter().all(|&count| count > 40), "{counts:?}");
        assert!(moves.iter().all(|m| m.0 == 0 || m.1 == 0));
    }

    #[test]
    fn hundreds_move_in_a_script() {
        let scripts = 20;
        let moves = moves(hundreds, scripts);
        assert!(moves.len() as u64 > 150 * scripts, "{}", moves.len());
        let many = moves.iter().filter(|(came, went)| came.max(went) > &4);
        let many = many.count();
        assert!(many > 20, "{many} of {}", moves.len());
    }

    #[test]
    fn rings_are_broken_and_closed() {
        let moves = moves(broken_ring, 200);
        let long = |rows: usize| rows > 255;
        assert!(moves.iter().filter(|m| long(m.0)).count() > 40);
        assert!(moves.iter().filter(|m| long(m.1)).count() > 40);
    }
}
