//! Commands as bytes: the one place of this crate that knows operand widths, beside the
//! place of a query's number of joins.

use wurzsige_sys::command::{
    CONSTRAINT, DESK, DROP, END, EVEN, FILLING, HOLD, KNOT, OPENER, PROBE, PUT, QUERY, REASON,
    REFER, RELEASE, REMOVE, ROW, ROW_ISSUED, TABLE, TOTAL,
};
use wurzsige_sys::{JOINS, MOST_COMMAND};

use crate::operand::{Column, Query, Range, Row, Value};
use crate::parts::{Constraint, Filling, Table};

/// What the byte of an operation on a value is greater by if an issue byte ends its
/// operands.
const WITH_ISSUE: u8 = 0x10;

/// The place of the number of joins, from where a query's bytes begin.
const JOINS_AT: usize = 7;

/// The bytes of one command.
#[derive(Clone, Copy)]
pub(crate) struct Command {
    bytes: [u8; MOST_COMMAND],
    length: usize,
}

impl Command {
    pub fn table(table: &Table) -> Command {
        Command::new(TABLE).u8(table.columns).u8(table.unique)
    }

    pub fn constraint(constraint: &Constraint) -> Command {
        let command = Command::new(CONSTRAINT);
        command.column(constraint.source).column(constraint.target)
    }

    pub fn filling(filling: &Filling) -> Command {
        let command = Command::new(FILLING).column(filling.column);
        command.u32(filling.low).u32(filling.high)
    }

    pub fn row(row: &Row) -> Command {
        if row.cells.iter().all(|cell| cell.issue == 0) {
            return Command::new(ROW).u8(row.table).cells(row);
        }
        Command::new(ROW_ISSUED)
            .u8(row.table)
            .cells(row)
            .issues(row)
    }

    pub fn end() -> Command {
        Command::new(END)
    }

    pub fn refer(filling: u8, value: Value) -> Command {
        Command::of_value(REFER, value, |command| {
            command.u8(filling).u32(value.number)
        })
    }

    pub fn drop(filling: u8, value: Value) -> Command {
        Command::of_value(DROP, value, |command| command.u8(filling).u32(value.number))
    }

    pub fn probe(column: Column, value: Value) -> Command {
        Command::of_value(PROBE, value, |command| {
            command.column(column).u32(value.number)
        })
    }

    pub fn query(query: &Query) -> Command {
        Command::of_value(QUERY, query.value, |command| command.operands(query))
    }

    pub fn total(query: &Query, position: u8, column: u8) -> Command {
        Command::of_value(TOTAL, query.value, |command| {
            command.operands(query).u8(position).u8(column)
        })
    }

    pub fn even() -> Command {
        Command::new(EVEN)
    }

    pub fn knot() -> Command {
        Command::new(KNOT)
    }

    pub fn desk(desk: u8) -> Command {
        Command::new(DESK).u8(desk)
    }

    pub fn reason(row: u16) -> Command {
        Command::new(REASON).u16(row)
    }

    pub fn opener(column: Column, value: Value) -> Command {
        let command = Command::new(OPENER).column(column);
        command.u32(value.number).u8(value.issue)
    }

    pub fn hold(range: Range) -> Command {
        Command::new(HOLD).range(range)
    }

    pub fn release(range: Range) -> Command {
        Command::new(RELEASE).range(range)
    }

    pub fn put(number: u16, row: &Row) -> Command {
        let command = Command::new(PUT).u16(number).u8(row.table);
        command.cells(row).issues(row)
    }

    pub fn remove(number: u16) -> Command {
        Command::new(REMOVE).u16(number)
    }

    /// The bytes.
    pub fn bytes(&self) -> &[u8] {
        &self.bytes[..self.length]
    }

    fn new(byte: u8) -> Command {
        let command = Command {
            bytes: [0; MOST_COMMAND],
            length: 0,
        };
        command.u8(byte)
    }

    /// An operation on a value, which is longer by a byte if the value has an issue.
    fn of_value(byte: u8, value: Value, operands: impl Fn(Command) -> Command) -> Command {
        match value.issue {
            0 => operands(Command::new(byte)),
            issue => operands(Command::new(byte + WITH_ISSUE)).u8(issue),
        }
    }

    fn u8(self, byte: u8) -> Command {
        self.with([byte])
    }

    fn u16(self, number: u16) -> Command {
        self.with(number.to_le_bytes())
    }

    fn u32(self, number: u32) -> Command {
        self.with(number.to_le_bytes())
    }

    fn with<const N: usize>(mut self, bytes: [u8; N]) -> Command {
        self.bytes[self.length..][..N].copy_from_slice(&bytes);
        self.length += N;
        self
    }

    fn column(self, column: Column) -> Command {
        self.u8(column.table).u8(column.column)
    }

    fn range(self, range: Range) -> Command {
        self.u8(range.filling).u32(range.low).u32(range.high)
    }

    fn cells(self, row: &Row) -> Command {
        let cells = row.cells.iter();
        cells.fold(self, |command, cell| command.u32(cell.number))
    }

    fn issues(self, row: &Row) -> Command {
        let cells = row.cells.iter();
        cells.fold(self, |command, cell| command.u8(cell.issue))
    }

    /// A query's operands. Of more than four joins only the count goes across, for which
    /// the query is refused.
    fn operands(self, query: &Query) -> Command {
        let joins = u8::try_from(query.joins.len()).unwrap_or(u8::MAX);
        let mut pairs = [0; 2 * JOINS];
        for (pair, join) in pairs.chunks_exact_mut(2).zip(&query.joins) {
            pair.copy_from_slice(&[join.position, join.constraint]);
        }
        let command = self.column(query.column).u32(query.value.number);
        command.u8(joins).with(pairs)
    }
}

/// How many row numbers the lists have of the query that begins at a place.
pub(crate) fn positions_at(script: &[u8], at: usize) -> usize {
    let joins = script.get(at..).and_then(|command| command.get(JOINS_AT));
    joins.map_or(1, |&joins| usize::from(joins) + 1)
}
