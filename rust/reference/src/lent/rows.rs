//! The rows: cells, issues, row tables and marks.

use super::flaw::Flaw;
use super::{Lent, ROWS};
use crate::design::Design;
use crate::desk::Desk;
use crate::script::{Row, Value, BLANK, CELLS};

/// The row table of a number that no row has.
pub const FREE: u8 = 255;

/// Adds the rows to a design, if they can be its rows.
pub fn add_rows(design: &mut Design, lent: &Lent) -> Result<(), Flaw> {
    for number in 0..ROWS {
        let cells = cells(lent, number);
        match lent.tables[number] {
            FREE => check_free(&cells)?,
            table => {
                let table = table.into();
                add_row(design, number, Row { table, cells })?;
            }
        }
    }
    Ok(())
}

fn cells(lent: &Lent, row: usize) -> [Value; CELLS] {
    std::array::from_fn(|column| Value {
        number: lent.cells[CELLS * row + column],
        issue: lent.issues[CELLS * row + column],
    })
}

fn check_free(cells: &[Value]) -> Result<(), Flaw> {
    Flaw::FreeCell.unless(cells.iter().all(|cell| cell.number == 0))?;
    Flaw::FreeIssue.unless(cells.iter().all(|cell| cell.issue == 0))
}

fn add_row(design: &mut Design, number: usize, row: Row) -> Result<(), Flaw> {
    let table = design.tables.get(row.table).ok_or(Flaw::RowTable)?;
    let (used, unused) = row.cells.split_at(table.columns);
    Flaw::CellPastColumns.unless(unused.iter().all(|cell| cell.number == 0))?;
    Flaw::IssuePastColumns.unless(unused.iter().all(|cell| cell.issue == 0))?;
    let no_blank_has_an_issue = used.iter().all(|cell| cell.number != 0 || cell.issue == 0);
    Flaw::IssueOnBlank.unless(no_blank_has_an_issue)?;
    let added = design.put_row(number, row);
    added.map_err(|_| Flaw::UniqueTwice)
}

/// Marks are 1 on exactly the cached rows and 0 elsewhere.
pub fn check_marks(desk: &Desk, lent: &Lent) -> Result<(), Flaw> {
    for (number, &mark) in lent.marks[..ROWS].iter().enumerate() {
        let cached = desk.cached().get(number) == Some(&true);
        Flaw::FreeMark.unless(mark == 0 || desk.design().has_row(number))?;
        Flaw::MarkAboveOne.unless(mark <= 1)?;
        Flaw::MarkMissing.unless(mark == 1 || !cached)?;
        Flaw::MarkTooMany.unless(mark == 0 || cached)?;
    }
    Ok(())
}

/// Lays out the rows and their marks.
pub fn put_rows(desk: &Desk, lent: &mut Lent) {
    let rows = &desk.design().rows;
    for number in 0..ROWS {
        let row = rows.get(number).copied().flatten();
        let cells = row.map_or([BLANK; CELLS], |row| row.cells);
        for (column, cell) in cells.iter().enumerate() {
            lent.cells[CELLS * number + column] = cell.number;
            lent.issues[CELLS * number + column] = cell.issue;
        }
        lent.tables[number] = row.map_or(FREE, |row| row.table as u8);
        lent.marks[number] = u8::from(desk.cached().get(number) == Some(&true));
    }
}
