//! A design's words: three counts, then the tables, the constraints and the fillings.

use super::flaw::Flaw;
use super::layout::{CONSTRAINTS, FILLINGS, TABLES};
use super::words::{byte, put, used, Flaws};
use crate::design::{Design, Table};
use crate::script::{Column, Constraint, Filling, CELLS};

const OF_TABLES: Flaws = Flaws {
    byte: Flaw::DesignByte,
    many: Flaw::ManyTables,
    unused: Flaw::UnusedTable,
};

const OF_CONSTRAINTS: Flaws = Flaws {
    byte: Flaw::DesignByte,
    many: Flaw::ManyConstraints,
    unused: Flaw::UnusedConstraint,
};

const OF_FILLINGS: Flaws = Flaws {
    byte: Flaw::DesignByte,
    many: Flaw::ManyFillings,
    unused: Flaw::UnusedFilling,
};

/// The tables, constraints and fillings, if some script gives them.
pub fn design_from(words: &[u32]) -> Result<Design, Flaw> {
    let mut design = Design::default();
    for table in used(words, TABLES, &OF_TABLES)? {
        add_table(&mut design, table)?;
    }
    for constraint in used(words, CONSTRAINTS, &OF_CONSTRAINTS)? {
        add_constraint(&mut design, constraint)?;
    }
    for filling in used(words, FILLINGS, &OF_FILLINGS)? {
        add_filling(&mut design, filling)?;
    }
    Ok(design)
}

fn add_table(design: &mut Design, words: &[u32]) -> Result<(), Flaw> {
    let columns = byte(words[0], Flaw::DesignByte)?;
    let unique = byte(words[1], Flaw::DesignByte)?;
    Flaw::Columns.unless((1..=CELLS).contains(&columns))?;
    let added = design.add_table(Table { columns, unique });
    added.map_err(|_| Flaw::UniqueColumn)
}

fn add_constraint(design: &mut Design, words: &[u32]) -> Result<(), Flaw> {
    let source = column(&words[..2])?;
    let target = column(&words[2..])?;
    Flaw::ConstraintSource.unless(design.has(source))?;
    Flaw::ConstraintTarget.unless(design.has(target))?;
    let added = design.add_constraint(Constraint { source, target });
    added.map_err(|_| Flaw::ConstraintTwice)
}

fn add_filling(design: &mut Design, words: &[u32]) -> Result<(), Flaw> {
    let column = column(&words[..2])?;
    let (low, high) = (words[2], words[3]);
    Flaw::FillingColumn.unless(design.has(column))?;
    Flaw::FillingLow.unless(low > 0)?;
    Flaw::FillingEmpty.unless(low <= high)?;
    let added = design.add_filling(Filling { column, low, high });
    added.map_err(|_| Flaw::FillingTwice)
}

fn column(words: &[u32]) -> Result<Column, Flaw> {
    Ok(Column {
        table: byte(words[0], Flaw::DesignByte)?,
        column: byte(words[1], Flaw::DesignByte)?,
    })
}

/// Lays out the tables, constraints and fillings.
pub fn put_design(design: &Design, words: &mut [u32]) {
    let tables = design.tables.iter().map(|table| {
        let Table { columns, unique } = *table;
        [columns as u32, unique as u32]
    });
    put(words, TABLES, tables);
    let constraints = design.constraints.iter().map(|constraint| {
        let [source_table, source] = pair(constraint.source);
        let [target_table, target] = pair(constraint.target);
        [source_table, source, target_table, target]
    });
    put(words, CONSTRAINTS, constraints);
    let fillings = design.fillings.iter().map(|filling| {
        let [table, column] = pair(filling.column);
        [table, column, filling.low, filling.high]
    });
    put(words, FILLINGS, fillings);
}

fn pair(column: Column) -> [u32; 2] {
    [column.table as u32, column.column as u32]
}
