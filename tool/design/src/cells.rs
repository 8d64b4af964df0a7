//! Which columns take a cell: those that a link, a load, a question or a total uses.

use crate::design::{Design, Place, Role};

/// The most cells of a row.
pub const MOST_CELLS: usize = 8;

/// For each table the columns that take a cell, in their order.
#[derive(Clone, Debug, PartialEq, Eq)]
pub struct Cells(Vec<Vec<usize>>);

impl Cells {
    /// The cells of a design. A table of which nothing is used has a cell all the same, for its key or else its first column, since a table
    /// has at least one.
    pub fn of(design: &Design) -> Cells {
        let mut used = vec![Vec::new(); design.tables.len()];
        for place in uses(design) {
            used[place.table].push(place.column);
        }
        for (columns, table) in used.iter_mut().zip(&design.tables) {
            if columns.is_empty() {
                let key = table
                    .columns
                    .iter()
                    .position(|column| column.role == Role::Key);
                columns.push(key.unwrap_or(0));
            }
            columns.sort_unstable();
            columns.dedup();
        }
        Cells(used)
    }

    /// The columns of a table that take a cell.
    pub fn columns(&self, table: usize) -> &[usize] {
        &self.0[table]
    }

    /// The cell's number of a column, if it takes one.
    pub fn cell(&self, place: Place) -> Option<usize> {
        self.0[place.table]
            .iter()
            .position(|&column| column == place.column)
    }

    /// The column that takes a cell.
    pub fn place(&self, table: usize, cell: usize) -> Option<Place> {
        let column = *self.0.get(table)?.get(cell)?;
        Some(Place { table, column })
    }
}

/// Every use of a column.
fn uses(design: &Design) -> Vec<Place> {
    let mut uses = Vec::new();
    for link in &design.links {
        uses.extend([link.source, link.target]);
    }
    uses.extend(design.loads.iter().map(|load| load.column));
    for question in &design.questions {
        uses.push(question.column);
        if let Some(total) = question.total {
            let table = design.positions(question)[total.position];
            let column = total.column;
            uses.push(Place { table, column });
        }
    }
    uses
}

/// Whether a link, a load or a question uses a table.
pub(crate) fn is_used(design: &Design, table: usize) -> bool {
    uses(design).iter().any(|place| place.table == table)
}
