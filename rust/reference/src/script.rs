//! The script's commands and how one is read (document 01, "The script", and what
//! document 02 adds).
//!
//! Reading settles causes 2 and 1, in that order. Whether a command is in its
//! order and its operands name anything is looked at where it is carried out.

use crate::refusal::Cause;

/// Cells in every ROW command, whatever its table.
pub const CELLS: usize = 8;

/// Pairs in every QUERY command, however many it uses.
pub const PAIRS: usize = 4;

/// A column of a table, both by number.
#[derive(Clone, Copy, Debug, PartialEq, Eq)]
pub struct Column {
    /// The table's number.
    pub table: usize,
    /// The column's number within the table.
    pub column: usize,
}

/// A link from a source column to a target column.
#[derive(Clone, Copy, Debug, PartialEq, Eq)]
pub struct Constraint {
    /// Where the demand comes from.
    pub source: Column,
    /// Where the demanded rows are.
    pub target: Column,
}

/// A filling column with its candidates, both ends counted.
#[derive(Clone, Copy, Debug)]
pub struct Filling {
    /// The filling column.
    pub column: Column,
    /// The lowest candidate.
    pub low: u32,
    /// The highest candidate.
    pub high: u32,
}

/// A cell, or what an operation looks for in cells: a number and its issue. Two
/// are equal only if both are.
#[derive(Clone, Copy, Debug, PartialEq, Eq, PartialOrd, Ord)]
pub struct Value {
    /// The number.
    pub number: u32,
    /// The issue.
    pub issue: u8,
}

/// The blank cell.
pub const BLANK: Value = Value {
    number: 0,
    issue: 0,
};

/// A backend row; the cells past its table's columns are blank.
#[derive(Clone, Copy, Debug)]
pub struct Row {
    /// The number of the row's table.
    pub table: usize,
    /// The cells.
    pub cells: [Value; CELLS],
}

/// A filling and a value: what REFER and DROP name, and what is held.
#[derive(Clone, Copy, Debug, PartialEq, Eq)]
pub struct Pair {
    /// The filling's number.
    pub filling: usize,
    /// The value.
    pub value: Value,
}

/// A filling and a range of numbers at issue 0, both ends counted.
#[derive(Clone, Copy, Debug, PartialEq, Eq, PartialOrd, Ord)]
pub struct Range {
    /// The filling's number.
    pub filling: usize,
    /// The lowest number.
    pub low: u32,
    /// The highest number.
    pub high: u32,
}

/// The operands of a PROBE command.
#[derive(Clone, Copy, Debug)]
pub struct Probe {
    /// The probed column.
    pub column: Column,
    /// The probed value.
    pub value: Value,
}

/// The join that adds one more position to a query.
#[derive(Clone, Copy, Debug, PartialEq, Eq)]
pub struct Join {
    /// The earlier position whose row is the constraint's source.
    pub position: usize,
    /// The constraint's number.
    pub constraint: usize,
}

/// The operands of a QUERY command.
#[derive(Clone, Copy, Debug)]
pub struct Query {
    /// The column that position 0 is looked up by.
    pub column: Column,
    /// The value looked up there.
    pub value: Value,
    /// How many of the pairs are joins.
    pub joins: usize,
    /// The joins, then the unused pairs.
    pub pairs: [Join; PAIRS],
}

/// The operands of a total: a query's, and which cell of its lists is added up.
#[derive(Clone, Copy, Debug)]
pub struct Total {
    /// The query.
    pub query: Query,
    /// The position of the row that has the cell.
    pub position: usize,
    /// The cell's column.
    pub column: usize,
}

/// A command with its operands as the bytes give them.
#[derive(Clone, Copy, Debug)]
pub enum Command {
    /// A table's column count and its unique columns, bit i for column i.
    Table {
        /// The column count.
        columns: usize,
        /// The unique columns.
        unique: usize,
    },
    /// A constraint.
    Constraint(Constraint),
    /// A filling.
    Filling(Filling),
    /// A backend row without issues.
    Row(Row),
    /// A backend row with issue bytes.
    RowWithIssues(Row),
    /// The end of the design.
    End,
    /// Hold a value.
    Refer(Pair),
    /// Stop holding a value.
    Drop(Pair),
    /// Ask whether a value is complete in a column.
    Probe(Probe),
    /// An equality-join query.
    Query(Query),
    /// Ask whether the design is even.
    Even,
    /// The sum of a cell over a query's lists.
    Total(Total),
    /// Ask for the fewest constraints that are uneven.
    Knot,
    /// Name the desk for what follows.
    Desk(usize),
    /// Ask why a row is cached.
    Reason(usize),
    /// Hold a range.
    Hold(Range),
    /// Stop holding a range.
    Release(Range),
    /// Put in a row.
    Put {
        /// Its number.
        number: usize,
        /// The row.
        row: Row,
    },
    /// Take out the row with a number.
    Take(usize),
    /// Ask for the value whose reference would give a probe a ground.
    Opener(Probe),
}

/// Reads the command that begins at `place`, and gives it with the place after
/// it.
pub fn read_command(script: &[u8], place: usize) -> Result<(Command, usize), Cause> {
    let mut reader = Reader { script, place };
    let command = match reader.u8()? {
        0x01 => Command::Table {
            columns: reader.number()?,
            unique: reader.number()?,
        },
        0x02 => Command::Constraint(Constraint {
            source: reader.column()?,
            target: reader.column()?,
        }),
        0x03 => Command::Filling(Filling {
            column: reader.column()?,
            low: reader.u32()?,
            high: reader.u32()?,
        }),
        0x04 => Command::Row(reader.row()?),
        0x05 => Command::End,
        0x07 => Command::RowWithIssues(reader.row_with_issues()?),
        0x10 => Command::Refer(reader.pair()?),
        0x11 => Command::Drop(reader.pair()?),
        0x12 => Command::Probe(reader.probe()?),
        0x13 => Command::Query(reader.query()?),
        0x14 => Command::Even,
        0x15 => Command::Total(reader.total()?),
        0x17 => Command::Desk(reader.number()?),
        0x18 => Command::Reason(reader.u16()?.into()),
        0x19 => Command::Opener(reader.with_issue(Reader::probe, |probe| &mut probe.value)?),
        0x1a => Command::Hold(reader.range()?),
        0x1b => Command::Release(reader.range()?),
        0x1c => Command::Knot,
        0x1d => Command::Put {
            number: reader.u16()?.into(),
            row: reader.row_with_issues()?,
        },
        0x1e => Command::Take(reader.u16()?.into()),
        0x20 => Command::Refer(reader.with_issue(Reader::pair, |pair| &mut pair.value)?),
        0x21 => Command::Drop(reader.with_issue(Reader::pair, |pair| &mut pair.value)?),
        0x22 => Command::Probe(reader.with_issue(Reader::probe, |probe| &mut probe.value)?),
        0x23 => Command::Query(reader.with_issue(Reader::query, |query| &mut query.value)?),
        0x25 => Command::Total(reader.with_issue(Reader::total, |total| &mut total.query.value)?),
        _ => return Err(Cause::UnknownCommand),
    };
    Ok((command, reader.place))
}

/// Takes operands from the script one after another.
struct Reader<'a> {
    script: &'a [u8],
    place: usize,
}

impl Reader<'_> {
    fn u8(&mut self) -> Result<u8, Cause> {
        let byte = *self.script.get(self.place).ok_or(Cause::TooFewBytes)?;
        self.place += 1;
        Ok(byte)
    }

    fn u16(&mut self) -> Result<u16, Cause> {
        Ok(u16::from_le_bytes([self.u8()?, self.u8()?]))
    }

    fn u32(&mut self) -> Result<u32, Cause> {
        let bytes = [self.u8()?, self.u8()?, self.u8()?, self.u8()?];
        Ok(u32::from_le_bytes(bytes))
    }

    fn number(&mut self) -> Result<usize, Cause> {
        Ok(usize::from(self.u8()?))
    }

    fn column(&mut self) -> Result<Column, Cause> {
        Ok(Column {
            table: self.number()?,
            column: self.number()?,
        })
    }

    fn row(&mut self) -> Result<Row, Cause> {
        let table = self.number()?;
        let mut cells = [BLANK; CELLS];
        for cell in &mut cells {
            cell.number = self.u32()?;
        }
        Ok(Row { table, cells })
    }

    fn row_with_issues(&mut self) -> Result<Row, Cause> {
        let mut row = self.row()?;
        for cell in &mut row.cells {
            cell.issue = self.u8()?;
        }
        Ok(row)
    }

    /// Operands with an issue byte at the end, which belongs to their value.
    fn with_issue<T>(
        &mut self,
        operands: impl Fn(&mut Self) -> Result<T, Cause>,
        value: impl Fn(&mut T) -> &mut Value,
    ) -> Result<T, Cause> {
        let mut operands = operands(self)?;
        value(&mut operands).issue = self.u8()?;
        Ok(operands)
    }

    /// A value of an operation that has no issue byte.
    fn value(&mut self) -> Result<Value, Cause> {
        Ok(Value {
            number: self.u32()?,
            issue: 0,
        })
    }

    fn pair(&mut self) -> Result<Pair, Cause> {
        Ok(Pair {
            filling: self.number()?,
            value: self.value()?,
        })
    }

    fn range(&mut self) -> Result<Range, Cause> {
        Ok(Range {
            filling: self.number()?,
            low: self.u32()?,
            high: self.u32()?,
        })
    }

    fn probe(&mut self) -> Result<Probe, Cause> {
        Ok(Probe {
            column: self.column()?,
            value: self.value()?,
        })
    }

    fn total(&mut self) -> Result<Total, Cause> {
        Ok(Total {
            query: self.query()?,
            position: self.number()?,
            column: self.number()?,
        })
    }

    fn query(&mut self) -> Result<Query, Cause> {
        let column = self.column()?;
        let value = self.value()?;
        let joins = self.number()?;
        let mut pairs = [UNUSED; PAIRS];
        for pair in &mut pairs {
            *pair = Join {
                position: self.number()?,
                constraint: self.number()?,
            };
        }
        Ok(Query {
            column,
            value,
            joins,
            pairs,
        })
    }
}

/// What a pair that is no join must be.
pub const UNUSED: Join = Join {
    position: 0,
    constraint: 0,
};
