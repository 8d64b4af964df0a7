//! Bytes to text: a line for each command.

use std::fmt;

use crate::bytes::{split, Piece};
use crate::command::{
    Column, Command, Constraint, Filling, Join, Pair, Probe, Put, Query, Range, Row, Table, Total,
    Value, CELLS,
};
use crate::widths::Widths;

const BYTES_ON_A_LINE: usize = 16;

/// The text of a script. [`crate::assemble`] gives the same bytes for it.
pub fn disassemble(script: &[u8]) -> String {
    let lines = pieces(script).into_iter().map(|(_, text)| text + "\n");
    lines.collect()
}

/// The same, with the byte at which it begins behind each command, as a comment: the place that
/// a refusal names.
///
/// ```
/// let text = "table 1  # byte 0\nend  # byte 3\n";
/// assert_eq!(notation::disassemble_with_offsets(&[1, 1, 0, 5]), text);
/// ```
pub fn disassemble_with_offsets(script: &[u8]) -> String {
    let line = |(offset, text): (usize, String)| match text.split_once('\n') {
        Some((first, rest)) => format!("{first}  # byte {offset}\n{rest}\n"),
        None => format!("{text}  # byte {offset}\n"),
    };
    pieces(script).into_iter().map(line).collect()
}

/// The texts of a script's pieces, each with the byte at which it begins.
fn pieces(script: &[u8]) -> Vec<(usize, String)> {
    let mut widths = Widths::default();
    let mut offset = 0;
    let mut texts = Vec::new();
    for piece in split(script) {
        let bytes = piece.bytes();
        texts.push((offset, piece_text(&piece, &bytes, &widths)));
        offset += bytes.len();
        if let Piece::Command(command) = &piece {
            widths.see(command);
        }
    }
    texts
}

fn piece_text(piece: &Piece, bytes: &[u8], widths: &Widths) -> String {
    match piece {
        Piece::Command(Command::Row(row)) => format!("row {}", RowText::new(row, widths)),
        Piece::Command(Command::Put(Put { number, row })) => {
            format!("put {number} {}", RowText::new(row, widths))
        }
        Piece::Command(command) => command.to_string(),
        Piece::Rest(_) => bytes_text(bytes),
    }
}

impl fmt::Display for Command {
    fn fmt(&self, out: &mut fmt::Formatter<'_>) -> fmt::Result {
        match self {
            Command::Table(table) => write_table(out, table),
            Command::Constraint(Constraint { source, target }) => {
                write!(out, "constraint {source} -> {target}")
            }
            Command::Filling(Filling { column, low, high }) => {
                write!(out, "filling {column} {low}..{high}")
            }
            Command::Row(row) => write!(out, "row {}", RowText::new(row, &Widths::default())),
            Command::End => write!(out, "end"),
            Command::Refer(Pair { filling, value }) => write!(out, "refer {filling} {value}"),
            Command::Drop(Pair { filling, value }) => write!(out, "drop {filling} {value}"),
            Command::Probe(Probe { column, value }) => write!(out, "probe {column} = {value}"),
            Command::Query(query) => match query.plain_joins() {
                Some(joins) => write_query(out, "query", query, joins),
                None => out.write_str(&bytes_text(&self.bytes())),
            },
            Command::Even => write!(out, "even"),
            Command::Total(Total {
                query,
                position,
                column,
            }) => match query.plain_joins() {
                Some(joins) => {
                    write_query(out, "total", query, joins)?;
                    write!(out, " of {position} column {column}")
                }
                None => out.write_str(&bytes_text(&self.bytes())),
            },
            Command::Knot => write!(out, "knot"),
            Command::Desk(desk) => write!(out, "desk {desk}"),
            Command::Reason(row) => write!(out, "reason {row}"),
            Command::Hold(range) => write!(out, "hold {range}"),
            Command::Release(range) => write!(out, "release {range}"),
            Command::Put(Put { number, row }) => {
                write!(
                    out,
                    "put {number} {}",
                    RowText::new(row, &Widths::default())
                )
            }
            Command::Take(number) => write!(out, "take {number}"),
            Command::Opener(Probe { column, value }) => write!(out, "opener {column} = {value}"),
        }
    }
}

impl fmt::Display for Value {
    fn fmt(&self, out: &mut fmt::Formatter<'_>) -> fmt::Result {
        match self.issue {
            None => write!(out, "{}", self.number),
            Some(issue) => write!(out, "{}#{issue}", self.number),
        }
    }
}

impl fmt::Display for Range {
    fn fmt(&self, out: &mut fmt::Formatter<'_>) -> fmt::Result {
        let Range { filling, low, high } = self;
        write!(out, "{filling} {low}..{high}")
    }
}

impl fmt::Display for Column {
    fn fmt(&self, out: &mut fmt::Formatter<'_>) -> fmt::Result {
        write!(out, "{}.{}", self.table, self.column)
    }
}

fn write_table(out: &mut fmt::Formatter<'_>, table: &Table) -> fmt::Result {
    let Table { columns, unique } = table;
    write!(out, "table {columns}")?;
    if *unique != 0 {
        write!(out, " unique")?;
    }
    for column in (0..8).filter(|column| unique >> column & 1 == 1) {
        write!(out, " {column}")?;
    }
    Ok(())
}

/// A row with so many of its cells.
struct RowText<'a> {
    row: &'a Row,
    cells: usize,
}

impl RowText<'_> {
    /// With a cell for each of its table's columns, and all up to the last that isn't blank.
    fn new<'a>(row: &'a Row, widths: &Widths) -> RowText<'a> {
        let blank = Value::new(0, 0);
        let last = (0..CELLS).rposition(|column| row.cell(column) != blank);
        let with_issues = usize::from(row.issues.is_some());
        let least = widths.cells(row.table).unwrap_or(0).max(with_issues);
        let cells = last.map_or(least, |last| least.max(last + 1));
        RowText { row, cells }
    }
}

/// The table and the cells. If there are places for issues and all are 0, the first cell says so.
impl fmt::Display for RowText<'_> {
    fn fmt(&self, out: &mut fmt::Formatter<'_>) -> fmt::Result {
        let RowText { row, cells } = self;
        write!(out, "{}", row.table)?;
        let without_issue = row.issues == Some([0; CELLS]);
        for column in 0..*cells {
            let Value { number, issue } = row.cell(column);
            match number {
                0 => write!(out, " -")?,
                number => write!(out, " {number}")?,
            }
            match issue {
                None if without_issue && column == 0 => write!(out, "#0")?,
                None => {}
                Some(issue) => write!(out, "#{issue}")?,
            }
        }
        Ok(())
    }
}

/// A query behind a command's name.
fn write_query(
    out: &mut fmt::Formatter<'_>,
    name: &str,
    query: &Query,
    joins: &[Join],
) -> fmt::Result {
    write!(out, "{name} {} = {}", query.column, query.value)?;
    for join in joins {
        write!(out, " join {} by {}", join.position, join.constraint)?;
    }
    Ok(())
}

fn bytes_text(bytes: &[u8]) -> String {
    let lines: Vec<String> = bytes.chunks(BYTES_ON_A_LINE).map(bytes_line).collect();
    lines.join("\n")
}

fn bytes_line(bytes: &[u8]) -> String {
    let numbers: Vec<String> = bytes.iter().map(|byte| format!("{byte:#04x}")).collect();
    format!("bytes {}", numbers.join(" "))
}
