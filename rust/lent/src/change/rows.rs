//! Flaws of rows and marks.

use compare::random::Random;
use reference::lent::layout::TABLES;
use reference::lent::{Flaw, Lent, FREE, ROWS};
use reference::script::CELLS;

use super::words::{any_word, around, columns};
use super::Aim;

/// The aims at flaws of rows and marks.
pub const AIMS: [Aim; 12] = [
    Aim::new(Flaw::RowTable, |random, lent| {
        let row = any_row(random, lent, is_live)?;
        let tables = lent.design[TABLES.count];
        lent.tables[row] = around(random, tables..=254) as u8;
        Some(())
    }),
    Aim::new(Flaw::CellPastColumns, |random, lent| {
        let cell = any_cell_past_columns(random, lent)?;
        lent.cells[cell] = any_word(random).max(1);
        Some(())
    }),
    Aim::new(Flaw::IssuePastColumns, |random, lent| {
        let cell = any_cell_past_columns(random, lent)?;
        lent.issues[cell] = any_issue(random);
        Some(())
    }),
    Aim::new(Flaw::IssueOnBlank, issue_on_blank),
    Aim::new(Flaw::UniqueTwice, unique_twice),
    Aim::new(Flaw::FreeCell, |random, lent| {
        let row = any_row(random, lent, is_free)?;
        lent.cells[CELLS * row + random.below(CELLS)] = any_word(random).max(1);
        Some(())
    }),
    Aim::new(Flaw::FreeCell, |random, lent| {
        let has_cell = |lent: &Lent, row| {
            let mut cells = lent.cells[CELLS * row..CELLS * (row + 1)].iter();
            is_live(lent, row) && cells.any(|&cell| cell != 0)
        };
        let row = any_row(random, lent, has_cell)?;
        lent.tables[row] = FREE;
        Some(())
    }),
    Aim::new(Flaw::FreeIssue, |random, lent| {
        let row = any_row(random, lent, is_free)?;
        lent.issues[CELLS * row + random.below(CELLS)] = any_issue(random);
        Some(())
    }),
    Aim::new(Flaw::FreeMark, |random, lent| {
        let row = any_row(random, lent, is_free)?;
        lent.marks[row] = any_issue(random);
        Some(())
    }),
    Aim::new(Flaw::MarkAboveOne, |random, lent| {
        let marked = any_row(random, lent, is_marked);
        let row = marked.or_else(|| any_row(random, lent, is_live))?;
        lent.marks[row] = around(random, 2..=255) as u8;
        Some(())
    }),
    Aim::new(Flaw::MarkMissing, |random, lent| {
        let row = any_row(random, lent, is_marked)?;
        lent.marks[row] = 0;
        Some(())
    }),
    Aim::new(Flaw::MarkTooMany, |random, lent| {
        let is_unmarked = |lent: &Lent, row| is_live(lent, row) && !is_marked(lent, row);
        let row = any_row(random, lent, is_unmarked)?;
        lent.marks[row] = 1;
        Some(())
    }),
];

fn is_live(lent: &Lent, row: usize) -> bool {
    lent.tables[row] != FREE
}

fn is_free(lent: &Lent, row: usize) -> bool {
    lent.tables[row] == FREE
}

fn is_marked(lent: &Lent, row: usize) -> bool {
    lent.marks[row] == 1
}

/// Any row that passes a test. Those at the ends, and beside rows of the other kind, come
/// more often than others.
fn any_row(random: &mut Random, lent: &Lent, test: impl Fn(&Lent, usize) -> bool) -> Option<usize> {
    let rows: Vec<usize> = (0..ROWS).filter(|&row| test(lent, row)).collect();
    match random.below(4) {
        0 => rows.first().copied(),
        1 => rows.last().copied(),
        _ => random.pick_any(&rows).copied(),
    }
}

fn any_cell_past_columns(random: &mut Random, lent: &Lent) -> Option<usize> {
    let has_more = |lent: &Lent, row| is_live(lent, row) && columns(lent, lent.tables[row]) < CELLS;
    let row = any_row(random, lent, has_more)?;
    let columns = columns(lent, lent.tables[row]);
    Some(CELLS * row + random.within(columns..=CELLS - 1))
}

fn any_issue(random: &mut Random) -> u8 {
    around(random, 1..=255) as u8
}

/// An issue on a cell that is blank already, or on one that is made blank.
fn issue_on_blank(random: &mut Random, lent: &mut Lent) -> Option<()> {
    let row = any_row(random, lent, is_live)?;
    let columns = columns(lent, lent.tables[row]);
    let cells = CELLS * row..CELLS * row + columns;
    let blanks: Vec<usize> = cells
        .clone()
        .filter(|&cell| lent.cells[cell] == 0)
        .collect();
    let blank = random.pick_any(&blanks).copied();
    let cell = blank.unwrap_or(cells.start + random.below(columns));
    lent.cells[cell] = 0;
    lent.issues[cell] = any_issue(random);
    Some(())
}

/// Makes a column unique in which another row has the same value; if none has, one gets it.
fn unique_twice(random: &mut Random, lent: &mut Lent) -> Option<()> {
    let row = any_row(random, lent, is_live)?;
    let table = lent.tables[row];
    let column = random.below(columns(lent, table));
    let value = |lent: &Lent, row| {
        let cell = CELLS * row + column;
        (lent.cells[cell], lent.issues[cell])
    };
    let (number, issue) = value(lent, row);
    if number == 0 {
        return None;
    }
    let is_other = |lent: &Lent, other| other != row && lent.tables[other] == table;
    let is_same =
        |lent: &Lent, other| is_other(lent, other) && value(lent, other) == (number, issue);
    let same = any_row(random, lent, is_same);
    let other = same.or_else(|| any_row(random, lent, is_other))?;
    lent.cells[CELLS * other + column] = number;
    lent.issues[CELLS * other + column] = issue;
    lent.design[TABLES.place(table.into()).start + 1] |= 1 << column;
    Some(())
}
