//! Commands as bytes: the one place that knows command bytes and operand widths.

use crate::command::{
    Column, Command, Constraint, Filling, Join, Pair, Probe, Put, Query, Range, Row, Table, Total,
    Value, CELLS, PAIRS,
};

const TABLE: u8 = 0x01;
const CONSTRAINT: u8 = 0x02;
const FILLING: u8 = 0x03;
const ROW: u8 = 0x04;
const END: u8 = 0x05;
const REFER: u8 = 0x10;
const DROP: u8 = 0x11;
const PROBE: u8 = 0x12;
const QUERY: u8 = 0x13;
const EVEN: u8 = 0x14;
const TOTAL: u8 = 0x15;
const ROW_WITH_ISSUES: u8 = 0x07;
const DESK: u8 = 0x17;
const REASON: u8 = 0x18;
const OPENER: u8 = 0x19;
const HOLD: u8 = 0x1a;
const RELEASE: u8 = 0x1b;
const KNOT: u8 = 0x1c;
const PUT: u8 = 0x1d;
const TAKE: u8 = 0x1e;

/// The operations that name a value.
const WITH_VALUE: [u8; 5] = [REFER, DROP, PROBE, QUERY, TOTAL];

/// What their byte is greater by if an issue byte ends their operands.
const WITH_ISSUE: u8 = 0x10;

/// The bytes that begin a command.
pub const COMMAND_BYTES: [u8; 25] = [
    TABLE,
    CONSTRAINT,
    FILLING,
    ROW,
    ROW_WITH_ISSUES,
    END,
    REFER,
    DROP,
    PROBE,
    QUERY,
    EVEN,
    TOTAL,
    REFER + WITH_ISSUE,
    DROP + WITH_ISSUE,
    PROBE + WITH_ISSUE,
    QUERY + WITH_ISSUE,
    TOTAL + WITH_ISSUE,
    DESK,
    REASON,
    OPENER,
    HOLD,
    RELEASE,
    KNOT,
    PUT,
    TAKE,
];

impl Command {
    /// The command's bytes.
    pub fn bytes(&self) -> Vec<u8> {
        let mut writer = Writer(Vec::new());
        match self {
            Command::Table(table) => writer.u8(TABLE).u8(table.columns).u8(table.unique),
            Command::Constraint(constraint) => writer
                .u8(CONSTRAINT)
                .column(constraint.source)
                .column(constraint.target),
            Command::Filling(filling) => writer
                .u8(FILLING)
                .column(filling.column)
                .u32(filling.low)
                .u32(filling.high),
            Command::Row(row) => writer.row(row),
            Command::End => writer.u8(END),
            Command::Refer(pair) => writer.operation(REFER, pair.value, |w| w.pair(*pair)),
            Command::Drop(pair) => writer.operation(DROP, pair.value, |w| w.pair(*pair)),
            Command::Probe(Probe { column, value }) => {
                writer.operation(PROBE, *value, |w| w.column(*column).u32(value.number))
            }
            Command::Query(query) => writer.operation(QUERY, query.value, |w| w.query(query)),
            Command::Even => writer.u8(EVEN),
            Command::Total(total) => writer.operation(TOTAL, total.query.value, |w| {
                w.query(&total.query).u8(total.position).u8(total.column)
            }),
            Command::Knot => writer.u8(KNOT),
            Command::Desk(desk) => writer.u8(DESK).u8(*desk),
            Command::Reason(row) => writer.u8(REASON).u16(*row),
            Command::Hold(range) => writer.u8(HOLD).range(*range),
            Command::Release(range) => writer.u8(RELEASE).range(*range),
            Command::Put(Put { number, row }) => {
                let writer = writer.u8(PUT).u16(*number).u8(row.table);
                writer
                    .cells(&row.cells)
                    .issues(&row.issues.unwrap_or_default())
            }
            Command::Take(number) => writer.u8(TAKE).u16(*number),
            Command::Opener(Probe { column, value }) => {
                let writer = writer.u8(OPENER).column(*column).u32(value.number);
                writer.u8(value.issue())
            }
        };
        writer.0
    }

    /// Reads the command at the head of `bytes`, and gives it with the bytes
    /// after it. There is none if the first byte is unknown or the operands are
    /// cut short.
    fn read(bytes: &[u8]) -> Option<(Command, &[u8])> {
        let mut reader = Reader(bytes);
        let byte = reader.u8()?;
        let plain = byte.wrapping_sub(WITH_ISSUE);
        let command = if WITH_VALUE.contains(&plain) {
            let command = reader.command(plain)?;
            command.with_issue(reader.u8()?)
        } else {
            reader.command(byte)?
        };
        Some((command, reader.0))
    }

    /// The operation with an issue.
    fn with_issue(mut self, issue: u8) -> Command {
        let value = match &mut self {
            Command::Refer(pair) | Command::Drop(pair) => Some(&mut pair.value),
            Command::Probe(probe) => Some(&mut probe.value),
            Command::Query(query) => Some(&mut query.value),
            Command::Total(total) => Some(&mut total.query.value),
            _ => None,
        };
        if let Some(value) = value {
            value.issue = Some(issue);
        }
        self
    }
}

/// The bytes of a script made of these commands.
pub fn encode(commands: &[Command]) -> Vec<u8> {
    commands.iter().flat_map(Command::bytes).collect()
}

/// A part of a script: a whole command, or what can't be read as one.
#[derive(Clone, Debug, PartialEq, Eq)]
pub enum Piece {
    /// A whole command.
    Command(Command),
    /// The rest of the script from an unknown byte or a command cut short on:
    /// nothing tells where a command would begin in it.
    Rest(Vec<u8>),
}

impl Piece {
    /// The piece's bytes.
    pub fn bytes(&self) -> Vec<u8> {
        match self {
            Piece::Command(command) => command.bytes(),
            Piece::Rest(bytes) => bytes.clone(),
        }
    }
}

/// Cuts a script into pieces; their bytes in order are the script.
pub fn split(mut script: &[u8]) -> Vec<Piece> {
    let mut pieces = Vec::new();
    while !script.is_empty() {
        match Command::read(script) {
            Some((command, rest)) => {
                pieces.push(Piece::Command(command));
                script = rest;
            }
            None => {
                pieces.push(Piece::Rest(script.to_vec()));
                script = &[];
            }
        }
    }
    pieces
}

/// Puts operands one after another.
struct Writer(Vec<u8>);

impl Writer {
    fn u8(&mut self, number: u8) -> &mut Writer {
        self.0.push(number);
        self
    }

    fn u16(&mut self, number: u16) -> &mut Writer {
        self.0.extend(number.to_le_bytes());
        self
    }

    fn u32(&mut self, number: u32) -> &mut Writer {
        self.0.extend(number.to_le_bytes());
        self
    }

    fn column(&mut self, column: Column) -> &mut Writer {
        self.u8(column.table).u8(column.column)
    }

    /// An operation that names a value, with its operands but for the issue.
    fn operation(
        &mut self,
        byte: u8,
        value: Value,
        operands: impl Fn(&mut Writer) -> &mut Writer,
    ) -> &mut Writer {
        match value.issue {
            None => operands(self.u8(byte)),
            Some(issue) => operands(self.u8(byte + WITH_ISSUE)).u8(issue),
        }
    }

    fn pair(&mut self, pair: Pair) -> &mut Writer {
        self.u8(pair.filling).u32(pair.value.number)
    }

    fn range(&mut self, range: Range) -> &mut Writer {
        self.u8(range.filling).u32(range.low).u32(range.high)
    }

    fn row(&mut self, row: &Row) -> &mut Writer {
        let byte = match row.issues {
            None => ROW,
            Some(_) => ROW_WITH_ISSUES,
        };
        let writer = self.u8(byte).u8(row.table).cells(&row.cells);
        match &row.issues {
            None => writer,
            Some(issues) => writer.issues(issues),
        }
    }

    fn cells(&mut self, cells: &[u32; CELLS]) -> &mut Writer {
        cells.iter().fold(self, |writer, &cell| writer.u32(cell))
    }

    fn issues(&mut self, issues: &[u8; CELLS]) -> &mut Writer {
        issues.iter().fold(self, |writer, &issue| writer.u8(issue))
    }

    fn query(&mut self, query: &Query) -> &mut Writer {
        self.column(query.column)
            .u32(query.value.number)
            .u8(query.joins)
            .joins(&query.pairs)
    }

    fn joins(&mut self, joins: &[Join; PAIRS]) -> &mut Writer {
        joins.iter().fold(self, |writer, join| {
            writer.u8(join.position).u8(join.constraint)
        })
    }
}

/// Takes operands one after another; each is there or the command is cut short.
struct Reader<'a>(&'a [u8]);

impl Reader<'_> {
    /// The operands of the command with this byte, without an issue.
    fn command(&mut self, byte: u8) -> Option<Command> {
        Some(match byte {
            TABLE => Command::Table(Table {
                columns: self.u8()?,
                unique: self.u8()?,
            }),
            CONSTRAINT => Command::Constraint(Constraint {
                source: self.column()?,
                target: self.column()?,
            }),
            FILLING => Command::Filling(Filling {
                column: self.column()?,
                low: self.u32()?,
                high: self.u32()?,
            }),
            ROW => Command::Row(Row {
                table: self.u8()?,
                cells: self.cells()?,
                issues: None,
            }),
            ROW_WITH_ISSUES => Command::Row(Row {
                table: self.u8()?,
                cells: self.cells()?,
                issues: Some(self.issues()?),
            }),
            END => Command::End,
            REFER => Command::Refer(self.pair()?),
            DROP => Command::Drop(self.pair()?),
            PROBE => Command::Probe(Probe {
                column: self.column()?,
                value: self.u32()?.into(),
            }),
            QUERY => Command::Query(self.query()?),
            EVEN => Command::Even,
            TOTAL => Command::Total(Total {
                query: self.query()?,
                position: self.u8()?,
                column: self.u8()?,
            }),
            KNOT => Command::Knot,
            DESK => Command::Desk(self.u8()?),
            REASON => Command::Reason(self.u16()?),
            HOLD => Command::Hold(self.range()?),
            RELEASE => Command::Release(self.range()?),
            PUT => Command::Put(Put {
                number: self.u16()?,
                row: self.row_with_issues()?,
            }),
            TAKE => Command::Take(self.u16()?),
            OPENER => Command::Opener(Probe {
                column: self.column()?,
                value: Value::new(self.u32()?, self.u8()?),
            }),
            _ => return None,
        })
    }

    fn u8(&mut self) -> Option<u8> {
        let (&byte, rest) = self.0.split_first()?;
        self.0 = rest;
        Some(byte)
    }

    fn u16(&mut self) -> Option<u16> {
        let (bytes, rest) = self.0.split_first_chunk()?;
        self.0 = rest;
        Some(u16::from_le_bytes(*bytes))
    }

    fn u32(&mut self) -> Option<u32> {
        let (bytes, rest) = self.0.split_first_chunk()?;
        self.0 = rest;
        Some(u32::from_le_bytes(*bytes))
    }

    fn column(&mut self) -> Option<Column> {
        Some(Column {
            table: self.u8()?,
            column: self.u8()?,
        })
    }

    fn pair(&mut self) -> Option<Pair> {
        Some(Pair {
            filling: self.u8()?,
            value: self.u32()?.into(),
        })
    }

    fn range(&mut self) -> Option<Range> {
        Some(Range {
            filling: self.u8()?,
            low: self.u32()?,
            high: self.u32()?,
        })
    }

    fn cells(&mut self) -> Option<[u32; CELLS]> {
        let mut cells = [0; CELLS];
        for cell in &mut cells {
            *cell = self.u32()?;
        }
        Some(cells)
    }

    /// A row whose issues have a place. If all are 0, they take none in the row.
    fn row_with_issues(&mut self) -> Option<Row> {
        let (table, cells) = (self.u8()?, self.cells()?);
        let issues = Some(self.issues()?);
        Some(Row {
            table,
            cells,
            issues: issues.filter(|issues| *issues != [0; CELLS]),
        })
    }

    fn issues(&mut self) -> Option<[u8; CELLS]> {
        let (issues, rest) = self.0.split_first_chunk()?;
        self.0 = rest;
        Some(*issues)
    }

    fn query(&mut self) -> Option<Query> {
        Some(Query {
            column: self.column()?,
            value: self.u32()?.into(),
            joins: self.u8()?,
            pairs: self.joins()?,
        })
    }

    fn joins(&mut self) -> Option<[Join; PAIRS]> {
        let mut joins = [Join::default(); PAIRS];
        for join in &mut joins {
            *join = Join {
                position: self.u8()?,
                constraint: self.u8()?,
            };
        }
        Some(joins)
    }
}
