//! A design with its rows, written as the script that reads as it.

use crate::design::Design;
use crate::script::{Column, Row};

/// The design's commands up to END, with the rows in rising number.
pub fn written(design: &Design) -> Vec<u8> {
    let mut bytes = Vec::new();
    for table in &design.tables {
        bytes.extend([0x01, table.columns as u8, table.unique as u8]);
    }
    for constraint in &design.constraints {
        bytes.push(0x02);
        bytes.extend(pair(constraint.source));
        bytes.extend(pair(constraint.target));
    }
    for filling in &design.fillings {
        bytes.push(0x03);
        bytes.extend(pair(filling.column));
        bytes.extend(filling.low.to_le_bytes());
        bytes.extend(filling.high.to_le_bytes());
    }
    for row in design.rows.iter().flatten() {
        write_row(row, &mut bytes);
    }
    bytes.push(0x05);
    bytes
}

fn pair(column: Column) -> [u8; 2] {
    [column.table as u8, column.column as u8]
}

/// The command with issues stands only where an issue isn't 0.
fn write_row(row: &Row, bytes: &mut Vec<u8>) {
    let has_issues = row.cells.iter().any(|cell| cell.issue != 0);
    bytes.extend([if has_issues { 0x07 } else { 0x04 }, row.table as u8]);
    bytes.extend(row.cells.iter().flat_map(|cell| cell.number.to_le_bytes()));
    if has_issues {
        bytes.extend(row.cells.iter().map(|cell| cell.issue));
    }
}
