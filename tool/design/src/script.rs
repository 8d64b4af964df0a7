//! A design as the bytes of a script, without rows.

use notation::{encode, Column, Command, Constraint, Filling, Table};

use crate::cells::Cells;
use crate::design::{Design, Load, Place};

/// The bytes of a design, up to and with END: tables, links as constraints, loads as fillings. Columns are those that take a cell.
pub fn script(design: &Design) -> Vec<u8> {
    let links: Vec<usize> = (0..design.links.len()).collect();
    script_with(design, &links)
}

/// The bytes of a design with only the links that are numbered.
pub fn script_with(design: &Design, links: &[usize]) -> Vec<u8> {
    let cells = Cells::of(design);
    let tables =
        (0..design.tables.len()).map(|table| Command::Table(table_of(design, &cells, table)));
    let constraints = links.iter().map(|&link| {
        let link = &design.links[link];
        Command::Constraint(Constraint {
            source: column(&cells, link.source),
            target: column(&cells, link.target),
        })
    });
    let fillings = design
        .loads
        .iter()
        .map(|load| Command::Filling(filling(&cells, load)));
    let commands: Vec<Command> = tables
        .chain(constraints)
        .chain(fillings)
        .chain([Command::End])
        .collect();
    encode(&commands)
}

fn table_of(design: &Design, cells: &Cells, table: usize) -> Table {
    let columns = cells.columns(table);
    let unique = (0..).zip(columns).filter(|(_, &column)| {
        let place = Place { table, column };
        design.column(place).role.is_unique()
    });
    Table {
        columns: byte(columns.len()),
        unique: unique.fold(0, |bits, (cell, _)| bits | 1u8 << cell),
    }
}

/// A column that takes a cell, as scripts name it.
fn column(cells: &Cells, place: Place) -> Column {
    let Some(cell) = cells.cell(place) else {
        unreachable!("a column that is used takes a cell");
    };
    Column {
        table: byte(place.table),
        column: byte(cell),
    }
}

fn filling(cells: &Cells, load: &Load) -> Filling {
    let (low, high) = load.values.unwrap_or((1, u32::MAX));
    Filling {
        column: column(cells, load.column),
        low,
        high,
    }
}

/// A number within the limits that reading a design has checked.
fn byte(number: usize) -> u8 {
    u8::try_from(number).unwrap_or(u8::MAX)
}
