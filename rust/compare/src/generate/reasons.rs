//! Reasons for rows, on designs where many chains are of one length.

use notation::{encode, Command};

use super::design::{Draft, Shape};
use super::operations::Operator;
use crate::random::Random;

/// Several values held, perhaps by several desks, and reasons for many rows.
pub fn rows(random: &mut Random) -> Vec<u8> {
    let shape = Shape {
        tables: 1..=3,
        columns: 2..=3,
        constraints: 2..=8,
        fillings: 1..=4,
        rows: 4..=24,
        values: 2..=12,
        unique: 10,
    };
    let draft = Draft::random(random, &shape);
    let mut operator = Operator::new(&draft);
    let mut commands = draft.design.commands();
    for _ in 0..random.within(1..=4) {
        for _ in 0..random.within(1..=3) {
            commands.push(match random.below(8) {
                0 => operator.name(random),
                1 => Command::Drop(operator.drop(random)),
                _ => Command::Refer(operator.refer(random)),
            });
        }
        for _ in 0..random.within(2..=8) {
            commands.push(operator.reason(random));
        }
    }
    encode(&commands)
}

#[cfg(test)]
mod tests {
    use super::*;

    #[test]
    fn reasons_of_some_links_are_found() {
        let report = |number| reference::report(&rows(&mut Random::new(1, number)));
        let reports: Vec<String> = (0..200).map(report).collect();
        let with = |links: usize| {
            let line = |line: &str| line.matches("by constraint").count() >= links;
            let with = reports.iter().filter(|report| report.lines().any(line));
            with.count()
        };
        let counts = [with(1), with(2), with(3)];
        assert!(
            counts
                .iter()
                .zip([100, 60, 20])
                .all(|(count, least)| *count > least),
            "{counts:?}"
        );
        let absent = reports.iter().filter(|report| report.contains(" absent\n"));
        assert!(absent.count() > 100);
    }
}
