//! What is asked in a session: every operation but an opener, which a slice can't answer,
//! and a reason, whose sentence numbers rows.

use compare::random::Random;
use notation::{encode, Command, Join, Pair, Probe, Query, Range, Total};
use reference::desk::Desk;
use reference::script::{self, Column, Row, BLANK};

use crate::database::{any_column, any_row};

/// An operation on the desk, or a change of the database.
#[derive(Clone, Debug)]
pub enum Operation {
    /// The bytes of a command.
    Command(Vec<u8>),
    /// A row comes to the database, at a number of its own.
    Put(usize, Row),
    /// A row goes.
    Take(usize),
}

/// Any operation on a desk.
pub fn operation(random: &mut Random, desk: &Desk, spread: usize) -> Operation {
    match random.below(100) {
        0..=8 => return put(random, desk, spread),
        9..=17 => return take(random, desk),
        _ => {}
    }
    let command = match random.below(100) {
        0..=29 => Command::Refer(pair(random, desk)),
        30..=41 => drop(random, desk),
        42..=59 => Command::Probe(probe(random, desk)),
        60..=74 => Command::Query(query(random, desk)),
        75..=82 => Command::Total(total(random, desk)),
        83..=91 => Command::Hold(range(random, desk)),
        92..=95 => release(random, desk),
        96 => Command::Desk(random.below(5) as u8),
        97 => Command::Even,
        _ => Command::Knot,
    };
    Operation::Command(encode(&[command]))
}

fn put(random: &mut Random, desk: &Desk, spread: usize) -> Operation {
    let design = desk.design();
    let mut row = any_row(random, design, spread);
    // A cell that is needed, so that the new row is one that matters.
    if let Some((column, value)) = needed(random, desk).filter(|_| random.percent(80)) {
        while row.table != column.table {
            row = any_row(random, design, spread);
        }
        row.cells[column.column] = value;
    }
    let free = design.rows.iter().position(Option::is_none);
    Operation::Put(free.unwrap_or(design.rows.len()), row)
}

/// A value that is held, or that a constraint demands of a cached row.
fn needed(random: &mut Random, desk: &Desk) -> Option<(Column, script::Value)> {
    let design = desk.design();
    if random.percent(50) {
        let pair = random.pick_any(&desk.held().values)?.pair;
        return Some((design.fillings[pair.filling].column, pair.value));
    }
    let constraint = *random.pick_any(&design.constraints)?;
    let cells = (0..design.rows.len()).filter(|&row| desk.cached()[row]);
    let cells = cells.filter_map(|row| design.cell(row, constraint.source));
    let cells: Vec<script::Value> = cells.filter(|&cell| cell != BLANK).collect();
    Some((constraint.target, *random.pick_any(&cells)?))
}

/// A cached row goes, more often than any.
fn take(random: &mut Random, desk: &Desk) -> Operation {
    let rows = desk.design().rows.len();
    let cached: Vec<usize> = (0..rows).filter(|&row| desk.cached()[row]).collect();
    let picked = random.pick_any(&cached).copied();
    match picked {
        Some(row) if random.percent(70) => Operation::Take(row),
        _ => Operation::Take(random.below(rows)),
    }
}

/// A value that some row has, of a cached one more often.
fn any_value(random: &mut Random, desk: &Desk) -> script::Value {
    let rows = &desk.design().rows;
    let cached: Vec<usize> = (0..rows.len()).filter(|&row| desk.cached()[row]).collect();
    for _ in 0..20 {
        let row = match random.pick_any(&cached) {
            Some(&row) if random.percent(60) => row,
            _ => random.below(rows.len()),
        };
        let Some(row) = rows[row] else { continue };
        let cell = row.cells[random.below(desk.design().tables[row.table].columns)];
        if cell != BLANK {
            return cell;
        }
    }
    script::Value {
        number: 1,
        issue: 0,
    }
}

fn value(random: &mut Random, desk: &Desk) -> notation::Value {
    let script::Value { number, issue } = any_value(random, desk);
    notation::Value::new(number, issue)
}

fn filling(random: &mut Random, desk: &Desk) -> u8 {
    random.below(desk.design().fillings.len()) as u8
}

/// A value of a filling, which some row has there more often than not.
fn pair(random: &mut Random, desk: &Desk) -> Pair {
    let filling = filling(random, desk);
    let column = desk.design().fillings[usize::from(filling)].column;
    let value = match random.percent(75) {
        true => value_of(random, desk, column),
        false => any_value(random, desk),
    };
    let script::Value { number, issue } = value;
    let value = notation::Value::new(number, issue);
    Pair { filling, value }
}

/// A value that some row has in a column, if one is found soon.
fn value_of(random: &mut Random, desk: &Desk, column: Column) -> script::Value {
    let design = desk.design();
    let tries = (0..40).map(|_| random.below(design.rows.len()));
    let mut cells = tries.filter_map(|row| design.cell(row, column));
    let found = cells.find(|&cell| cell != BLANK);
    found.unwrap_or_else(|| any_value(random, desk))
}

fn drop(random: &mut Random, desk: &Desk) -> Command {
    let held = &desk.held().values;
    let Some(owned) = random.pick_any(held) else {
        return Command::Drop(pair(random, desk));
    };
    let script::Value { number, issue } = owned.pair.value;
    Command::Drop(Pair {
        filling: owned.pair.filling as u8,
        value: notation::Value::new(number, issue),
    })
}

fn column(random: &mut Random, desk: &Desk) -> notation::Column {
    let script::Column { table, column } = any_column(random, desk.design());
    let (table, column) = (table as u8, column as u8);
    notation::Column { table, column }
}

fn probe(random: &mut Random, desk: &Desk) -> Probe {
    Probe {
        column: column(random, desk),
        value: value(random, desk),
    }
}

/// A query by a filling's column, so that it fetches, or by any; with joins that fit.
fn query(random: &mut Random, desk: &Desk) -> Query {
    let design = desk.design();
    let Probe {
        mut column,
        mut value,
    } = probe(random, desk);
    if random.percent(70) {
        let pair = pair(random, desk);
        let of = design.fillings[usize::from(pair.filling)].column;
        value = pair.value;
        column = notation::Column {
            table: of.table as u8,
            column: of.column as u8,
        };
    }
    let mut tables = vec![usize::from(column.table)];
    let mut joins = Vec::new();
    for _ in 0..random.below(4) {
        let position = random.below(tables.len());
        let fitting: Vec<usize> = (0..design.constraints.len())
            .filter(|&number| design.constraints[number].source.table == tables[position])
            .collect();
        let Some(&constraint) = random.pick_any(&fitting) else {
            continue;
        };
        tables.push(design.constraints[constraint].target.table);
        joins.push(Join {
            position: position as u8,
            constraint: constraint as u8,
        });
    }
    Query::new(column, value, &joins)
}

fn total(random: &mut Random, desk: &Desk) -> Total {
    let query = query(random, desk);
    Total {
        query,
        position: random.below(usize::from(query.joins) + 1) as u8,
        column: random.below(2) as u8,
    }
}

fn range(random: &mut Random, desk: &Desk) -> Range {
    let Pair { filling, value } = pair(random, desk);
    let low = value.number;
    Range {
        filling,
        low,
        high: low.saturating_add(random.below(12) as u32),
    }
}

fn release(random: &mut Random, desk: &Desk) -> Command {
    let held: Vec<script::Range> = desk.held().ranges.concat();
    let Some(range) = random.pick_any(&held) else {
        return Command::Even;
    };
    Command::Release(Range {
        filling: range.filling as u8,
        low: range.low,
        high: range.high,
    })
}
