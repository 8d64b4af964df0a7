//! Openers: the loads that would give a probe a ground.

use notation::{encode, Column, Command, Constraint, Design, Filling, Pair, Probe, Table, Value};

use super::design::{Draft, Shape, Values};
use super::operations::Operator;
use super::with_operations;
use crate::random::Random;

/// Openers on designs with few held values, and loads, drops and probes of the same
/// values. Some follow a load of what would open them.
pub fn openers(random: &mut Random) -> Vec<u8> {
    let shape = Shape {
        tables: 1..=5,
        constraints: 1..=8,
        fillings: 1..=4,
        values: 3..=9,
        unique: 25,
        ..Shape::SPARSE
    };
    let draft = Draft::random(random, &shape);
    let mut operator = Operator::new(&draft);
    let mut commands = draft.design.commands();
    for _ in 0..random.within(3..=14) {
        commands.push(match random.below(10) {
            0 => Command::Refer(operator.refer(random)),
            1 => Command::Drop(operator.drop(random)),
            2 => operator.operation(random),
            _ => operator.opener(random),
        });
    }
    encode(&commands)
}

/// A probe that only one of two far rows opens, along a chain of up to 510 rows of
/// two tables, or that nothing opens.
pub fn far(random: &mut Random) -> Vec<u8> {
    let links = random.within(2..=255);
    let values = Values::new(2 * links + 2, random.percent(30));
    let column = |table, column| Column { table, column };
    let constraint = |source, target| Constraint { source, target };
    let is_unique = random.percent(50);
    let mut design = Design {
        tables: vec![table(3, 0), table(2, u8::from(is_unique))],
        constraints: vec![
            constraint(column(0, 1), column(1, 0)),
            constraint(column(1, 1), column(0, 0)),
        ],
        ..Design::default()
    };
    let keys = [values.get(2 * links), values.get(2 * links + 1)];
    let low = keys[0].number.min(keys[1].number);
    design.fillings.push(Filling {
        column: column(0, 2),
        low,
        high: low + 1,
    });
    let start = random.below(links);
    for link in 0..links {
        let [here, there, next] = [2 * link, 2 * link + 1, 2 * link + 2];
        let key = match link {
            0 => keys[0],
            link if link == start => keys[1],
            _ => 0.into(),
        };
        design.add_row(0, &[values.get(here), values.get(there), key]);
        design.add_row(1, &[values.get(there), values.get(next)]);
    }
    random.shuffle(&mut design.rows);
    let draft = Draft { design, values };
    let asked = |random: &mut Random| {
        let any = random.below(links);
        let link = *random.pick(&[0, links - 1, any]);
        let (column, place) = *random.pick(&[
            (column(1, 0), 2 * link + 1),
            (column(0, 0), 2 * link + 2),
            (column(0, 0), 0),
            (column(1, 1), 2 * link + 2),
        ]);
        let value: Value = values.get(place);
        Command::Opener(Probe { column, value })
    };
    let mut commands = draft.design.commands();
    for _ in 0..random.within(1..=4) {
        commands.push(asked(random));
    }
    let value = keys[random.below(2)];
    commands.push(Command::Refer(Pair { filling: 0, value }));
    commands.push(asked(random));
    with_operations(random, &draft, commands, 3)
}

fn table(columns: u8, unique: u8) -> Table {
    Table { columns, unique }
}

#[cfg(test)]
mod tests {
    use super::*;

    /// How many of 200 reports have a line that ends like this.
    fn reports_with(make: fn(&mut Random) -> Vec<u8>, test: impl Fn(&str) -> bool) -> usize {
        let report = |number| reference::report(&make(&mut Random::new(1, number)));
        (0..200)
            .filter(|&number| report(number).lines().any(&test))
            .count()
    }

    fn is_opener(line: &str) -> bool {
        let words: Vec<&str> = line.split(' ').collect();
        words.len() == 4 && words.iter().all(|word| word.parse::<u32>().is_ok())
    }

    #[test]
    fn all_answers_are_found() {
        for make in [openers, far] {
            assert!(reports_with(make, is_opener) > 100);
            assert!(reports_with(make, |line| line.ends_with(" open")) > 30);
            assert!(reports_with(make, |line| line.ends_with(" none")) > 30);
        }
    }
}
