//! Commands with one operand made wrong on purpose. By chance the new operand
//! may be right as well.

use notation::{
    Column, Command, Constraint, Design, Filling, Pair, Probe, Put, Query, Range, Row, Table,
    Total, CELLS, PAIRS,
};

use crate::random::Random;

/// The command of a script on the design, with one operand changed.
pub fn spoil(random: &mut Random, design: &Design, command: Command) -> Command {
    match command {
        Command::Table(table) => Command::Table(spoil_table(random, table)),
        Command::Constraint(constraint) => {
            Command::Constraint(spoil_constraint(random, design, constraint))
        }
        Command::Filling(filling) => Command::Filling(spoil_filling(random, design, filling)),
        Command::Row(row) => Command::Row(spoil_row(random, design, row)),
        Command::End | Command::Even | Command::Knot => command,
        Command::Opener(probe) => Command::Opener(spoil_probe(random, design, probe)),
        Command::Hold(range) => Command::Hold(spoil_range(random, design, range)),
        Command::Release(range) => Command::Release(spoil_range(random, design, range)),
        Command::Put(put) => Command::Put(spoil_put(random, design, put)),
        Command::Take(_) => Command::Take(spoil_row_number(random, design)),
        Command::Reason(_) => Command::Reason(spoil_row_number(random, design)),
        Command::Desk(_) => Command::Desk(match random.below(2) {
            0 => 4,
            _ => random.byte(),
        }),
        Command::Refer(pair) => Command::Refer(spoil_pair(random, design, pair)),
        Command::Drop(pair) => Command::Drop(spoil_pair(random, design, pair)),
        Command::Probe(probe) => Command::Probe(spoil_probe(random, design, probe)),
        Command::Query(query) => Command::Query(spoil_query(random, design, query)),
        Command::Total(total) => Command::Total(spoil_total(random, design, total)),
    }
}

fn spoil_table(random: &mut Random, mut table: Table) -> Table {
    match random.below(4) {
        0 => table.columns = 0,
        1 => table.columns = CELLS as u8 + 1,
        2 => table.columns = random.byte(),
        _ => table.unique |= 1 << random.below(8),
    }
    table
}

fn spoil_constraint(
    random: &mut Random,
    design: &Design,
    mut constraint: Constraint,
) -> Constraint {
    match random.below(3) {
        0 => constraint.source = spoil_column(random, design, constraint.source),
        1 => constraint.target = spoil_column(random, design, constraint.target),
        _ => constraint = *random.pick(&design.constraints),
    }
    constraint
}

fn spoil_filling(random: &mut Random, design: &Design, mut filling: Filling) -> Filling {
    match random.below(4) {
        0 => filling.low = 0,
        1 => filling.low = filling.high.wrapping_add(1),
        2 => filling.column = spoil_column(random, design, filling.column),
        _ => filling.column = random.pick(&design.fillings).column,
    }
    filling
}

fn spoil_row(random: &mut Random, design: &Design, mut row: Row) -> Row {
    match random.below(7) {
        0 => row.table = design.tables.len() as u8,
        1 => row.cells[random.below(CELLS)] = 1,
        2 => row = random.pick_any(&design.rows).copied().unwrap_or(row),
        3 => row.issues = Some([0; CELLS]),
        4 => {
            // A blank in a column that the table has.
            let table = design.tables.get(usize::from(row.table));
            let column = random.below(table.map_or(CELLS, |table| table.columns.into()));
            row.cells[column] = 0;
            row.issues.get_or_insert_default()[column] = 1;
        }
        _ => row.issues.get_or_insert_default()[random.below(CELLS)] = random.byte(),
    }
    row
}

/// The first number that no row of the design has, the first that none can have, the
/// largest, or any.
fn spoil_row_number(random: &mut Random, design: &Design) -> u16 {
    match random.below(5) {
        0 | 1 => design.rows.len() as u16,
        2 => 512,
        3 => u16::MAX,
        _ => u16::from_le_bytes([random.byte(), random.byte()]),
    }
}

/// Another number, which may be taken or too large, or another row.
fn spoil_put(random: &mut Random, design: &Design, mut put: Put) -> Put {
    match random.below(5) {
        0 => put.number = random.below(design.rows.len().max(1)) as u16,
        1 => put.number = spoil_row_number(random, design),
        _ => put.row = spoil_row(random, design, put.row),
    }
    put
}

fn spoil_pair(random: &mut Random, design: &Design, mut pair: Pair) -> Pair {
    match random.below(3) {
        0 => pair.filling = design.fillings.len() as u8,
        1 => pair.filling = random.byte(),
        _ => pair.value.number = 0,
    }
    pair
}

fn spoil_range(random: &mut Random, design: &Design, mut range: Range) -> Range {
    match random.below(6) {
        0 => range.filling = design.fillings.len() as u8,
        1 => range.filling = random.byte(),
        2 => range.low = 0,
        3 => range.low = range.high.wrapping_add(1),
        4 => range.high = range.high.wrapping_add(1),
        _ => range.low = range.low.wrapping_sub(1),
    }
    range
}

fn spoil_probe(random: &mut Random, design: &Design, mut probe: Probe) -> Probe {
    match random.below(2) {
        0 => probe.column = spoil_column(random, design, probe.column),
        _ => probe.value.number = 0,
    }
    probe
}

fn spoil_query(random: &mut Random, design: &Design, mut query: Query) -> Query {
    let pair = random.below(PAIRS);
    match random.below(7) {
        0 => query.column = spoil_column(random, design, query.column),
        1 => query.value.number = 0,
        2 => query.joins = PAIRS as u8 + 1,
        3 => query.joins = random.below(PAIRS + 1) as u8,
        4 => query.pairs[pair].position = random.below(PAIRS + 1) as u8,
        5 => query.pairs[pair].constraint = design.constraints.len() as u8,
        _ => query.pairs[pair].constraint = random.below(PAIRS) as u8,
    }
    query
}

fn spoil_total(random: &mut Random, design: &Design, mut total: Total) -> Total {
    match random.below(7) {
        0 => total.position = total.query.joins + 1,
        1 => total.position = random.byte(),
        2 | 3 => total.column = random.below(CELLS + 1) as u8,
        4 => total.column = random.byte(),
        5 => total.query = spoil_query(random, design, total.query),
        _ => {
            // The position is looked at before the value.
            total.query.value.number = 0;
            total.position = total.query.joins + 1;
        }
    }
    total
}

fn spoil_column(random: &mut Random, design: &Design, mut column: Column) -> Column {
    match random.below(3) {
        0 => column.table = design.tables.len() as u8,
        // The table may be wrong already.
        1 => {
            let table = design.tables.get(usize::from(column.table));
            column.column = table.map_or(0, |table| table.columns);
        }
        _ => column.column = random.byte(),
    }
    column
}

#[cfg(test)]
mod tests {
    use super::*;
    use crate::generate::design::{Draft, Shape};
    use crate::generate::operations::Operator;

    #[test]
    fn a_spoilt_command_can_be_spoilt_again() {
        for number in 0..2_000 {
            let mut random = Random::new(1, number);
            let draft = Draft::random(&mut random, &Shape::SPARSE);
            let mut commands = draft.design.commands();
            commands.push(Operator::new(&draft).operation(&mut random));
            for mut command in commands {
                for _ in 0..5 {
                    command = spoil(&mut random, &draft.design, command);
                }
            }
        }
    }
}
