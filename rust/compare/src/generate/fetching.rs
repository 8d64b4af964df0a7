//! Queries and totals that refer their value first, and what may follow them.

use notation::{encode, Command, Pair, Probe, Query, Total, Value};

use super::design::{Draft, Shape};
use super::extremes::every_value;
use super::operations::Operator;
use super::with_operations;
use crate::random::Random;

/// Queries and totals of values that may not be held, each with operations on its
/// value.
pub fn visits(random: &mut Random) -> Vec<u8> {
    let shape = if random.percent(50) {
        Shape::SPARSE
    } else {
        Shape::DENSE
    };
    let shape = Shape {
        fillings: 1..=3,
        ..shape
    };
    let draft = Draft::random(random, &shape);
    let mut operator = Operator::new(&draft);
    let mut commands = draft.design.commands();
    for _ in 0..random.within(1..=8) {
        commands.extend(operator.visit(random));
    }
    encode(&commands)
}

/// 14 to 17 different values held, by loads, queries or totals, or nearly all of
/// them, and then a query or total of another that is a candidate: it takes the
/// last place, or is sent until one is dropped. Other desks may hold values too.
pub fn last_place(random: &mut Random) -> Vec<u8> {
    let shape = Shape {
        tables: 1..=2,
        fillings: 1..=1,
        values: 16..=80,
        ..Shape::SPARSE
    };
    let mut draft = Draft::random(random, &shape);
    let column = draft.design.fillings[0].column;
    draft.design.fillings[0] = every_value(column);
    let ask = |random: &mut Random, value| {
        let query = Query::new(column, value, &[]);
        if random.percent(50) {
            return Command::Query(query);
        }
        Command::Total(Total {
            query,
            position: 0,
            column: column.column,
        })
    };
    let mut values: Vec<Value> = (0..18).map(|place| draft.values.get(place)).collect();
    random.shuffle(&mut values);
    let (held, others) = values.split_at(random.within(14..=17));
    let pair = |value| Pair { filling: 0, value };
    let asked = random.below(101);
    let mut commands = draft.design.commands();
    if random.percent(50) {
        commands.push(Command::Desk(3));
        for place in 18..random.within(18..=36) {
            commands.push(Command::Refer(pair(draft.values.get(place))));
        }
        commands.push(Command::Desk(random.below(3) as u8));
    }
    for &value in held {
        commands.push(if random.percent(asked) {
            ask(random, value)
        } else {
            Command::Refer(pair(value))
        });
    }
    for _ in 0..random.within(2..=8) {
        let (one, other) = (*random.pick(held), *random.pick(others));
        commands.push(match random.below(9) {
            0 => Command::Refer(pair(other)),
            1 => Command::Probe(Probe {
                column,
                value: other,
            }),
            2 | 3 => Command::Drop(pair(one)),
            4 => ask(random, one),
            _ => ask(random, other),
        });
    }
    with_operations(random, &draft, commands, 5)
}

/// What may stand around a query or total that may be refused for its answer: a
/// load before it in half of the cases, and behind it operations that show whether
/// its value is held.
pub fn around(random: &mut Random, query: Query, question: Command) -> Vec<Command> {
    let Query { column, value, .. } = query;
    let pair = Pair { filling: 0, value };
    let mut commands = Vec::new();
    if random.percent(50) {
        commands.push(Command::Refer(pair));
    }
    commands.push(question);
    for _ in 0..random.below(5) {
        commands.push(match random.below(6) {
            0 | 1 => Command::Probe(Probe { column, value }),
            2 => Command::Refer(pair),
            3 => Command::Drop(pair),
            4 => Command::Query(query),
            _ => question,
        });
    }
    commands
}

#[cfg(test)]
mod tests {
    use super::*;

    /// How many of 300 reports have each of the answers.
    fn reports_with(make: fn(&mut Random) -> Vec<u8>, answers: &[&str]) -> Vec<usize> {
        let report = |number| reference::report(&make(&mut Random::new(1, number)));
        let reports: Vec<String> = (0..300).map(report).collect();
        let with = |answer: &&str| {
            let with = reports.iter().filter(|report| report.contains(answer));
            with.count()
        };
        answers.iter().map(with).collect()
    }

    #[test]
    fn visits_answer_hold_and_drop() {
        let answers = [" answer ", " total ", " held\n", " dropped ", " sent\n"];
        let counts = reports_with(visits, &answers);
        assert!(counts.iter().all(|&count| count > 60), "{counts:?}");
    }

    #[test]
    fn the_last_place_is_taken_or_missing() {
        let answers = [" answer ", " total ", " sent\n", " refused 8 "];
        let counts = reports_with(last_place, &answers);
        assert!(counts.iter().all(|&count| count > 60), "{counts:?}");
    }
}
