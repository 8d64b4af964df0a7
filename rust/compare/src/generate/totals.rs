//! Totals at the largest one, and over more lists than could be written.

use notation::{Column, Command, Constraint, Design, Join, Pair, Query, Table, Total, PAIRS};

use super::design::{Draft, Values};
use super::extremes::every_value;
use super::fetching::around;
use super::with_operations;
use crate::random::Random;

/// The rows of a group that has 256^4 lists of four.
const GROUP: usize = 256;

/// A total of 2^64 - 1, that is (2^32 - 1) (2^32 + 1), or of a little less or
/// more. A row of table 0 with the largest cell has 256^4 lists, and a second one a
/// single list. There may be a third with one.
pub fn largest(random: &mut Random) -> Vec<u8> {
    let [asked, group, cell] = [0, 1, 2].map(|place| column(0, place));
    let target = column(1, 0);
    let values = Values::new(3, random.percent(50)).reissued(random);
    let [key, large, small] = [0, 1, 2].map(|place| values.get(place));
    let mut design = Design {
        tables: vec![table(3), table(1)],
        constraints: vec![constraint(group, target), constraint(target, target)],
        fillings: vec![every_value(asked)],
        rows: Vec::new(),
    };
    let (second, third) = match random.below(5) {
        0 | 1 => (u32::MAX, None),
        2 => (u32::MAX - 1, None),
        3 => (u32::MAX, Some(1)),
        _ => (any_cell(random), Some(any_cell(random))),
    };
    design.add_row(0, &[key, large, u32::MAX.into()]);
    design.add_row(0, &[key, small, second.into()]);
    if let Some(third) = third {
        design.add_row(0, &[key, small, third.into()]);
    }
    for _ in 0..GROUP {
        design.add_row(1, &[large]);
    }
    design.add_row(1, &[small]);
    random.shuffle(&mut design.rows);
    let joins = [(0, 0), (1, 1), (2, 1), (3, 1)].map(join);
    let total = Total {
        query: Query::new(asked, key, &joins),
        position: 0,
        column: cell.column,
    };
    asked_for(random, Draft { design, values }, total)
}

/// Rows with one value, each of which demands all of them: their number to the
/// power of up to five lists, with any cells; or 512 rows of the value 1, which
/// have 2^45 lists of five.
pub fn crowd(random: &mut Random) -> Vec<u8> {
    let all = random.percent(30);
    let rows = if all {
        512
    } else {
        *random.pick(&[1, 2, 7, 64, 200, 512])
    };
    let values = Values::new(1, !all && random.percent(50));
    let key = column(0, 0);
    let mut design = Design {
        tables: vec![table(2)],
        constraints: vec![constraint(key, key)],
        fillings: vec![every_value(key)],
        rows: Vec::new(),
    };
    for cell in any_cells(random, rows) {
        design.add_row(0, &[values.get(0), cell.into()]);
    }
    let count = if all { PAIRS } else { any_count(random) };
    let joins = any_joins(random, count, |_| 0);
    let total = Total {
        position: random.below(joins.len() + 1) as u8,
        query: Query::new(key, values.get(0), &joins),
        column: if all { 0 } else { random.below(2) as u8 },
    };
    asked_for(random, Draft { design, values }, total)
}

/// A group of table 1 that is cached by itself, and that a row of table 0 leads to
/// or not: if it doesn't, the total is 0, whatever the group comes to. In half of
/// the cases that is more than 2^64 - 1.
pub fn beside_a_group(random: &mut Random) -> Vec<u8> {
    let [asked, link] = [0, 1].map(|place| column(0, place));
    let target = column(1, 0);
    let values = Values::new(2, random.percent(50));
    let [key, group] = [0, 1].map(|place| values.get(place));
    let mut design = Design {
        tables: vec![table(2), table(2)],
        constraints: vec![constraint(link, target), constraint(target, target)],
        fillings: vec![every_value(asked), every_value(target)],
        rows: Vec::new(),
    };
    let leads = random.percent(30);
    design.add_row(0, &[key, if leads { group } else { 0.into() }]);
    let (cells, joins, position) = if random.percent(50) {
        let cells = vec![u32::MAX; random.within(257..=320)];
        let joins = [(0, 0), (1, 1), (random.within(1..=2) as u8, 1), (1, 1)];
        (cells, joins.map(join).to_vec(), random.within(1..=PAIRS))
    } else {
        let rows = *random.pick(&[1, 20, 300]);
        let count = any_count(random);
        let joins = any_joins(random, count, |position| u8::from(position > 0));
        (any_cells(random, rows), joins, random.below(count + 1))
    };
    for cell in cells {
        design.add_row(1, &[group, cell.into()]);
    }
    let total = Total {
        query: Query::new(asked, key, &joins),
        position: position as u8,
        column: 1,
    };
    let mut draft = Draft { design, values };
    random.shuffle(&mut draft.design.rows);
    let load = Command::Refer(Pair {
        filling: 1,
        value: group,
    });
    let operations = around(random, total.query, Command::Total(total));
    let commands = [draft.design.commands(), vec![load], operations].concat();
    with_operations(random, &draft, commands, 5)
}

/// Four joins, or fewer.
fn any_count(random: &mut Random) -> usize {
    *random.pick(&[1, 2, 3, PAIRS, PAIRS, PAIRS])
}

/// So many joins, each from any earlier position, by the constraint that leads from
/// there.
fn any_joins(random: &mut Random, count: usize, constraint: impl Fn(usize) -> u8) -> Vec<Join> {
    let joins = (0..count).map(|earlier| {
        let position = random.below(earlier + 1);
        join((position as u8, constraint(position)))
    });
    joins.collect()
}

/// Cells that are all the same, or any.
fn any_cells(random: &mut Random, count: usize) -> Vec<u32> {
    let cell = any_cell(random);
    let same = random.percent(50);
    let mut next = || if same { cell } else { any_cell(random) };
    (0..count).map(|_| next()).collect()
}

/// A blank, a small cell, one near the largest, or any.
fn any_cell(random: &mut Random) -> u32 {
    match random.below(8) {
        0 => 0,
        1 => 1,
        2 => random.below(100) as u32,
        3 | 4 => u32::MAX,
        5 => u32::MAX - 1,
        _ => u32::from_le_bytes([(); 4].map(|()| random.byte())),
    }
}

/// The design with the total, what may stand around it, and some operations.
fn asked_for(random: &mut Random, draft: Draft, total: Total) -> Vec<u8> {
    let operations = around(random, total.query, Command::Total(total));
    let commands = [draft.design.commands(), operations].concat();
    with_operations(random, &draft, commands, 5)
}

fn table(columns: u8) -> Table {
    Table { columns, unique: 0 }
}

fn column(table: u8, column: u8) -> Column {
    Column { table, column }
}

fn constraint(source: Column, target: Column) -> Constraint {
    Constraint { source, target }
}

fn join((position, constraint): (u8, u8)) -> Join {
    Join {
        position,
        constraint,
    }
}

#[cfg(test)]
mod tests {
    use super::*;

    /// The total that each of 200 scripts asks for first.
    fn first_totals(make: fn(&mut Random) -> Vec<u8>) -> Vec<String> {
        let report = |number| reference::report(&make(&mut Random::new(1, number)));
        let first = |report: &String| {
            let mut answers = report.lines().filter_map(|line| line.split_once(' '));
            let is_first = |(_, answer): &(&str, &str)| {
                ["total ", "refused 13 "]
                    .iter()
                    .any(|word| answer.starts_with(word))
            };
            let (_, answer) = answers.find(is_first)?;
            let mut words = answer.split(' ');
            let (word, number) = (words.next()?, words.next()?);
            Some(format!("{word} {number}"))
        };
        let totals = (0..200).map(report);
        totals
            .map(|report| first(&report).unwrap_or_else(|| panic!("{report}")))
            .collect()
    }

    fn count(totals: &[String], total: &str) -> usize {
        totals.iter().filter(|other| *other == total).count()
    }

    #[test]
    fn the_largest_total_and_its_neighbours() {
        let totals = first_totals(largest);
        for (total, least) in [(u64::MAX.to_string(), 60), ((u64::MAX - 1).to_string(), 20)] {
            assert!(
                count(&totals, &format!("total {total}")) > least,
                "{totals:?}"
            );
        }
        assert!(count(&totals, "refused 13") > 20, "{totals:?}");
    }

    #[test]
    fn crowds_have_totals_of_all_sizes() {
        let totals = first_totals(crowd);
        assert!(count(&totals, "total 35184372088832") > 20, "{totals:?}");
        assert!(count(&totals, "refused 13") > 10, "{totals:?}");
        assert!(count(&totals, "total 0") > 2, "{totals:?}");
        let long = totals.iter().filter(|total| total.len() > 20);
        assert!(long.count() > 20, "{totals:?}");
    }

    #[test]
    fn what_no_list_reaches_adds_nothing() {
        let totals = first_totals(beside_a_group);
        assert!(count(&totals, "total 0") > 100, "{totals:?}");
        assert!(count(&totals, "refused 13") > 20, "{totals:?}");
    }
}
