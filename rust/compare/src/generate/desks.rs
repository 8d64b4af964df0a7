//! Desks that hold the same values, and some that are full while others are not.

use notation::{encode, Command, Pair, Probe, Query};

use super::design::{Draft, Shape};
use super::extremes::every_value;
use super::operations::{Operator, DESKS};
use crate::random::Random;

/// Operations by one desk after another on a few values, so that several hold the
/// same one.
pub fn shared(random: &mut Random) -> Vec<u8> {
    let shape = Shape {
        fillings: 1..=2,
        values: 2..=4,
        ..Shape::SPARSE
    };
    let draft = Draft::random(random, &shape);
    let mut operator = Operator::new(&draft);
    let mut commands = draft.design.commands();
    for _ in 0..random.within(3..=12) {
        commands.push(operator.name(random));
        for _ in 0..random.within(1..=4) {
            commands.push(match random.below(8) {
                0..=2 => Command::Refer(operator.refer(random)),
                3..=5 => Command::Drop(operator.drop(random)),
                _ => operator.operation(random),
            });
        }
    }
    encode(&commands)
}

/// Each of four desks holds 15 or 16 different values, and then they go on.
pub fn full(random: &mut Random) -> Vec<u8> {
    let shape = Shape {
        fillings: 1..=1,
        values: 64..=80,
        ..Shape::SPARSE
    };
    let mut draft = Draft::random(random, &shape);
    let column = draft.design.fillings[0].column;
    draft.design.fillings[0] = every_value(column);
    let mut operator = Operator::new(&draft);
    let mut commands = draft.design.commands();
    let mut places: Vec<usize> = (0..64).collect();
    random.shuffle(&mut places);
    for (desk, own) in places.chunks(places.len() / DESKS).enumerate() {
        commands.push(Command::Desk(desk as u8));
        let count = if random.percent(85) { 16 } else { 15 };
        for &place in &own[..count] {
            let value = draft.values.get(place);
            commands.push(Command::Refer(Pair { filling: 0, value }));
        }
    }
    for _ in 0..random.within(4..=12) {
        let value = draft.values.get(random.below(70));
        commands.push(match random.below(7) {
            6 => Command::Opener(Probe { column, value }),
            0 => operator.name(random),
            1 => Command::Drop(Pair { filling: 0, value }),
            2 => Command::Refer(Pair { filling: 0, value }),
            3 => Command::Probe(Probe { column, value }),
            4 => Command::Query(Query::new(column, value, &[])),
            _ => operator.operation(random),
        });
    }
    encode(&commands)
}

#[cfg(test)]
mod tests {
    use super::*;

    #[test]
    fn full_desks_hold_64_values() {
        let loads = |number| {
            let report = reference::report(&full(&mut Random::new(1, number)));
            let lines = report.lines().skip(1).take(68);
            lines.filter(|line| line.contains(" loaded ")).count()
        };
        let full = (0..200).filter(|&number| loads(number) == 64);
        assert!(full.count() > 60);
    }
}
