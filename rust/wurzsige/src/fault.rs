//! Which operand is wrong, once the desk has refused an operation. The desk alone decides;
//! what is found here is told only where its cause is the desk's.

use wurzsige_sys::{DESKS, JOINS, ROWS};

use crate::operand::{Column, Query, Range, Row, Value};
use crate::parts::{Design, Table};
use crate::refusal::{Cause, Operand, Refusal};

/// A wrong operand, with the cause that it is refused for.
pub(crate) type Fault = (Cause, Operand);

/// The refusal with the operand that is wrong, if that is what the desk refused.
pub(crate) fn explained(refusal: Refusal, fault: Option<Fault>) -> Refusal {
    let fault = fault.filter(|&(cause, _)| cause == refusal.cause);
    refusal.of_method(fault.map(|(_, operand)| operand))
}

/// The operand, unless it is right.
fn unless(right: bool, cause: Cause, operand: Operand) -> Option<Fault> {
    (!right).then_some((cause, operand))
}

pub(crate) fn wrong(right: bool, operand: Operand) -> Option<Fault> {
    unless(right, Cause::WrongOperand, operand)
}

pub(crate) fn desk(desk: u8) -> Option<Fault> {
    wrong(usize::from(desk) < DESKS, Operand::Desk(desk))
}

pub(crate) fn number_of_row(row: u16, taken: bool) -> Option<Fault> {
    wrong(taken, Operand::Row(row))
}

/// The number of a row that is to come.
pub(crate) fn number_for_row(row: u16, taken: bool) -> Option<Fault> {
    let free = usize::from(row) < ROWS && !taken;
    wrong(free, Operand::Row(row))
}

fn value(value: Value) -> Option<Fault> {
    unless(value.number != 0, Cause::ValueZero, Operand::Value(value))
}

/// Two ends of numbers, whatever they are for.
pub(crate) fn ends(low: u32, high: u32) -> Option<Fault> {
    wrong(low != 0, Operand::Low(low)).or_else(|| wrong(low <= high, Operand::High(high)))
}

impl Design {
    fn filling_fault(&self, filling: u8) -> Option<Fault> {
        let there = usize::from(filling) < self.fillings.len();
        wrong(there, Operand::Filling(filling))
    }

    fn table_fault(&self, table: u8) -> Option<Fault> {
        let there = usize::from(table) < self.tables.len();
        wrong(there, Operand::Table(table))
    }

    pub(crate) fn column_fault(&self, column: Column) -> Option<Fault> {
        self.table_fault(column.table)
            .or_else(|| wrong(self.has(column), Operand::Column(column)))
    }

    pub(crate) fn refer_fault(&self, filling: u8, referred: Value) -> Option<Fault> {
        self.filling_fault(filling).or_else(|| value(referred))
    }

    pub(crate) fn drop_fault(&self, filling: u8, dropped: Value, held: bool) -> Option<Fault> {
        self.refer_fault(filling, dropped)
            .or_else(|| unless(held, Cause::NotHeld, Operand::Value(dropped)))
    }

    pub(crate) fn probe_fault(&self, column: Column, probed: Value) -> Option<Fault> {
        self.column_fault(column).or_else(|| value(probed))
    }

    pub(crate) fn hold_fault(&self, range: Range) -> Option<Fault> {
        self.filling_fault(range.filling)
            .or_else(|| ends(range.low, range.high))
    }

    pub(crate) fn release_fault(&self, range: Range, held: bool) -> Option<Fault> {
        self.hold_fault(range)
            .or_else(|| unless(held, Cause::NotHeld, Operand::Range(range)))
    }

    pub(crate) fn query_fault(&self, query: &Query) -> Option<Fault> {
        self.lists_fault(query).or_else(|| value(query.value))
    }

    pub(crate) fn total_fault(&self, query: &Query, position: u8, column: u8) -> Option<Fault> {
        self.lists_fault(query)
            .or_else(|| self.cell_fault(query, position, column))
            .or_else(|| value(query.value))
    }

    /// A query's column and joins.
    fn lists_fault(&self, query: &Query) -> Option<Fault> {
        let joins = query.joins.len();
        self.column_fault(query.column)
            .or_else(|| wrong(joins <= JOINS, Operand::Joins(joins)))
            .or_else(|| (0..joins).find_map(|join| self.join_fault(query, join)))
    }

    fn join_fault(&self, query: &Query, join: usize) -> Option<Fault> {
        let crate::operand::Join {
            position,
            constraint,
        } = query.joins[join];
        if usize::from(position) > join {
            let operand = Operand::JoinPosition { join, position };
            return wrong(false, operand);
        }
        let source = self.constraints.get(usize::from(constraint));
        let fits = source.is_some_and(|constraint| {
            self.table_at(query, usize::from(position)) == Some(constraint.source.table)
        });
        wrong(fits, Operand::JoinConstraint { join, constraint })
    }

    /// The table of a query's rows at a position.
    fn table_at(&self, query: &Query, position: usize) -> Option<u8> {
        let Some(join) = position.checked_sub(1) else {
            return Some(query.column.table);
        };
        let constraint = usize::from(query.joins.get(join)?.constraint);
        Some(self.constraints.get(constraint)?.target.table)
    }

    fn cell_fault(&self, query: &Query, position: u8, column: u8) -> Option<Fault> {
        let Some(table) = self.table_at(query, usize::from(position)) else {
            return wrong(false, Operand::Position(position));
        };
        let there = self.has(Column { table, column });
        wrong(there, Operand::CellColumn(column))
    }

    /// A row that is to come beside others.
    pub(crate) fn row_fault(
        &self,
        row: &Row,
        others: impl Iterator<Item = Row> + Clone,
    ) -> Option<Fault> {
        let Some(table) = self.tables.get(usize::from(row.table)) else {
            return wrong(false, Operand::Table(row.table));
        };
        let columns = || (0..8).zip(row.cells);
        columns()
            .find_map(|(column, cell)| cell_fault(table, column, cell))
            .or_else(|| {
                columns().find_map(|(column, cell)| {
                    let mut same = others.clone().filter(|other| other.table == row.table);
                    let looked_at = table.is_unique(column) && cell.number != 0;
                    let twice =
                        looked_at && same.any(|other| other.cells[usize::from(column)] == cell);
                    unless(!twice, Cause::ValueTwice, Operand::Cell(column))
                })
            })
    }
}

/// A cell past the columns, or an issue on a blank.
fn cell_fault(table: &Table, column: u8, cell: Value) -> Option<Fault> {
    let there = column < table.columns || cell == Value::BLANK;
    let issue_on_a_blank = cell.number == 0 && cell.issue != 0;
    wrong(there && !issue_on_a_blank, Operand::Cell(column))
}
