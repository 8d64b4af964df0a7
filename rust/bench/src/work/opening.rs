//! Designs at their largest, to be opened and no more: one table whose eight
//! columns are unique, 16 constraints and eight fillings. The order in which a
//! column's values come can make a difference to how it is read.

use notation::Design;

use super::growing::eight_linked_columns;
use super::{column, filling, table};

/// A design to be opened.
#[derive(Clone, Debug)]
pub struct Opening {
    /// In which order its values come.
    pub name: &'static str,
    /// The design.
    pub design: Design,
}

/// The openings for a number of rows.
pub fn openings(rows: usize) -> Vec<Opening> {
    let rows = rows as u32;
    let opening = |name, order: &dyn Fn(u32) -> u32| Opening {
        name,
        design: design(rows, order),
    };
    vec![
        opening("rising values", &|row| 1 + row),
        opening("falling values", &|row| rows - row),
        // Rows are a power of two, so that an odd factor takes each once.
        opening("shuffled values", &|row| 1 + row * 181 % rows),
    ]
}

fn design(rows: u32, order: &dyn Fn(u32) -> u32) -> Design {
    let mut design = eight_linked_columns();
    design.tables = vec![table(8, u8::MAX)];
    design.fillings = (0..8).map(|place| filling(column(0, place))).collect();
    for row in 0..rows {
        design.add_row(0, &[order(row); 8]);
    }
    design
}
