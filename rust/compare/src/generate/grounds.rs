//! Probes of unique columns, where a cached row is a ground by itself.

use notation::{encode, Command};

use super::design::{Draft, Shape};
use super::operations::Operator;
use crate::random::Random;

/// Loads, and probes of unique columns, of which few are held or demanded.
pub fn unique_columns(random: &mut Random) -> Vec<u8> {
    let shape = Shape {
        columns: 2..=4,
        constraints: 0..=2,
        fillings: 1..=2,
        rows: 6..=24,
        unique: 60,
        ..Shape::SPARSE
    };
    let draft = Draft::random(random, &shape);
    let mut operator = Operator::new(&draft);
    let mut commands = draft.design.commands();
    for _ in 0..random.within(4..=16) {
        let probe = operator.unique_probe(random);
        commands.push(match probe {
            Some(probe) if random.percent(60) => Command::Probe(probe),
            _ => Command::Refer(operator.refer(random)),
        });
    }
    encode(&commands)
}

#[cfg(test)]
mod tests {
    use super::*;

    #[test]
    fn ground_3_is_found() {
        let report = |number| reference::report(&unique_columns(&mut Random::new(1, number)));
        let found = (0..300).filter(|&number| report(number).contains(" ground 3 "));
        assert!(found.count() > 60);
    }
}
