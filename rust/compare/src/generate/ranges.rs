//! Ranges: held beside values, joined, dropped whole or refused, and as many as a desk
//! can hold.

use notation::{encode, Column, Command, Design, Filling, Pair, Probe, Query, Range, Table, Value};

use super::design::{Draft, Shape, Values};
use super::operations::Operator;
use super::with_operations;
use crate::random::Random;

/// Ranges among some values, with loads, drops, probes and reasons of the same.
pub fn weeks(random: &mut Random) -> Vec<u8> {
    let shape = Shape {
        fillings: 1..=3,
        values: 4..=16,
        rows: 4..=24,
        unique: 20,
        ..Shape::SPARSE
    };
    let draft = Draft::random(random, &shape);
    let mut operator = Operator::new(&draft);
    let mut commands = draft.design.commands();
    for _ in 0..random.within(4..=24) {
        commands.push(match random.below(12) {
            0..=3 => Command::Hold(operator.hold(random)),
            4 | 5 => Command::Release(operator.release(random)),
            6 => Command::Refer(operator.refer(random)),
            7 => Command::Drop(operator.drop(random)),
            8 => operator.reason(random),
            _ => operator.operation(random),
        });
    }
    encode(&commands)
}

/// Seven to nine ranges with gaps of one number between them, and then ranges that fill
/// gaps, touch at the ends, lie within, or stand apart; from 1 upwards, or up to
/// 2^32 - 1.
pub fn full(random: &mut Random) -> Vec<u8> {
    let length = random.within(1..=3) as u32;
    let step = length + 1;
    let ranges = random.within(7..=9) as u32;
    let last = step * 12;
    let first = if random.percent(50) {
        2
    } else {
        u32::MAX - last
    };
    let column = Column {
        table: 0,
        column: 0,
    };
    let values = Values::new(last as usize, first > 2);
    let mut design = Design {
        tables: vec![Table {
            columns: 2,
            unique: 0,
        }],
        fillings: vec![Filling {
            column,
            low: first - 1,
            high: first.saturating_add(last),
        }],
        ..Design::default()
    };
    for _ in 0..random.below(12) {
        let number = first + random.below(last as usize) as u32;
        let issue = u8::from(random.percent(20));
        design.add_row(0, &[Value::new(number, issue), values.any(random)]);
    }
    let draft = Draft { design, values };
    let range = |low: u32, high: u32| Range {
        filling: 0,
        low,
        high,
    };
    let mut commands = draft.design.commands();
    let mut places: Vec<u32> = (0..ranges).collect();
    random.shuffle(&mut places);
    for place in places {
        let low = first + step * place;
        commands.push(Command::Hold(range(low, low + length - 1)));
    }
    for _ in 0..random.within(3..=12) {
        let low = first + step * random.below(11) as u32;
        let value = Value::from(low + random.below(step as usize) as u32);
        // Behind all others. Past 2^32 - 1 it begins again at 0, on purpose: there it stands
        // below all candidates, and builds with and without tests for overflow make the same.
        let apart = low.wrapping_add(step * 10);
        commands.push(match random.below(11) {
            0 => Command::Hold(range(low + length, low + length)),
            1 => Command::Hold(range(low, low + length - 1)),
            2 => Command::Hold(range(low + length, low + step)),
            3 => Command::Hold(range(low, low + 2 * step)),
            4 => Command::Hold(range(apart, apart.saturating_add(1))),
            5 => Command::Release(range(low, low + length - 1)),
            6 => Command::Release(range(low, low + step + length - 1)),
            7 => Command::Refer(Pair { filling: 0, value }),
            8 => Command::Drop(Pair { filling: 0, value }),
            9 => Command::Probe(Probe { column, value }),
            _ => Command::Query(Query::new(column, value, &[])),
        });
    }
    with_operations(random, &draft, commands, 4)
}

#[cfg(test)]
mod tests {
    use super::*;

    /// How many of 300 reports have each of the answers.
    fn reports_with(make: fn(&mut Random) -> Vec<u8>, answers: &[&str]) -> Vec<usize> {
        let report = |number| reference::report(&make(&mut Random::new(1, number)));
        let reports: Vec<String> = (0..300).map(report).collect();
        let with = |answer: &&str| {
            let with = reports.iter().filter(|report| report.contains(answer));
            with.count()
        };
        answers.iter().map(with).collect()
    }

    #[test]
    fn ranges_are_held_and_dropped() {
        let answers = [
            " held\n",
            " dropped ",
            " by range ",
            " refused 10 ",
            " no candidate\n",
        ];
        let counts = reports_with(weeks, &answers);
        assert!(counts.iter().all(|&count| count > 30), "{counts:?}");
    }

    #[test]
    fn full_desks_refuse_ranges() {
        let counts = reports_with(full, &[" refused 8 ", " held\n", " dropped "]);
        assert!(counts.iter().all(|&count| count > 60), "{counts:?}");
    }
}
