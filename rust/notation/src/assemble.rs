//! Text to bytes: the parser of the notation.

use std::fmt;

use crate::command::{
    Column, Command, Constraint, Filling, Join, Pair, Probe, Put, Query, Range, Row, Table, Total,
    Value, CELLS, PAIRS,
};
use crate::token::{tokens, Token};
use crate::widths::Widths;

/// What is wrong in a text, and where; line and column are counted from 1.
#[derive(Clone, Debug, PartialEq, Eq)]
pub struct Error {
    /// The line.
    pub line: usize,
    /// The column, in characters.
    pub column: usize,
    /// What is wrong.
    pub message: String,
}

impl fmt::Display for Error {
    fn fmt(&self, out: &mut fmt::Formatter<'_>) -> fmt::Result {
        let Error {
            line,
            column,
            message,
        } = self;
        write!(out, "line {line}, column {column}: {message}")
    }
}

impl std::error::Error for Error {}

impl Error {
    /// The error with the line of the text in which it is, and a caret below its place.
    ///
    /// ```
    /// let text = "table 1\nend\nprobe 0.0 = x\n";
    /// let error = notation::assemble(text).unwrap_err();
    /// let shown = "line 3, column 13: expected a value, found `x`\n  probe 0.0 = x\n              ^";
    /// assert_eq!(error.shown_in(text), shown);
    /// ```
    pub fn shown_in(&self, text: &str) -> String {
        let line = text.lines().nth(self.line - 1).unwrap_or_default();
        let before = line.chars().take(self.column - 1);
        let blanks: String = before.map(|c| if c == '\t' { c } else { ' ' }).collect();
        format!("{self}\n  {line}\n  {blanks}^")
    }
}

/// The script that a text stands for, or the first thing that is wrong in it.
pub fn assemble(text: &str) -> Result<Vec<u8>, Error> {
    assemble_whole(text).map_err(|mut errors| errors.swap_remove(0))
}

/// The script that a text stands for, or all that is wrong in it, line by line.
///
/// ```
/// let errors = notation::assemble_whole("table 1\nrow 0 x\nende\n").unwrap_err();
/// let lines: Vec<usize> = errors.iter().map(|error| error.line).collect();
/// assert_eq!(lines, [2, 3]);
/// ```
pub fn assemble_whole(text: &str) -> Result<Vec<u8>, Vec<Error>> {
    let (mut script, mut errors) = (Vec::new(), Vec::new());
    let mut widths = Widths::default();
    for (index, line) in text.lines().enumerate() {
        match line_bytes(line, &mut widths) {
            Ok(bytes) => script.extend(bytes),
            Err(fault) => {
                widths.see_faulty(line);
                errors.push(Error {
                    line: index + 1,
                    column: fault.column,
                    message: fault.message,
                });
            }
        }
    }
    match errors.is_empty() {
        true => Ok(script),
        false => Err(errors),
    }
}

/// An error whose line isn't known yet.
struct Fault {
    column: usize,
    message: String,
}

fn line_bytes(line: &str, widths: &mut Widths) -> Result<Vec<u8>, Fault> {
    let tokens = tokens(line).map_err(|stray| Fault {
        column: stray.column,
        message: stray.message,
    })?;
    let Some((&name, operands)) = tokens.split_first() else {
        return Ok(Vec::new());
    };
    let mut operands = Operands {
        rest: operands,
        last: name,
        widths,
    };
    if name.text == "bytes" {
        let bytes = operands.raw_bytes()?;
        widths.see_bytes();
        return Ok(bytes);
    }
    let command = operands.command(name)?;
    operands.finish()?;
    widths.see(&command);
    Ok(command.bytes())
}

/// The tokens after a command's name, taken one after another.
struct Operands<'a> {
    rest: &'a [Token<'a>],
    last: Token<'a>,
    widths: &'a Widths,
}

impl<'a> Operands<'a> {
    fn command(&mut self, name: Token<'a>) -> Result<Command, Fault> {
        Ok(match name.text {
            "table" => Command::Table(self.table()?),
            "constraint" => Command::Constraint(self.constraint()?),
            "filling" => Command::Filling(self.filling()?),
            "row" => Command::Row(self.row()?),
            "end" => Command::End,
            "refer" => Command::Refer(self.pair()?),
            "drop" => Command::Drop(self.pair()?),
            "probe" => Command::Probe(self.probe()?),
            "query" => Command::Query(self.query()?),
            "even" => Command::Even,
            "total" => Command::Total(self.total()?),
            "knot" => Command::Knot,
            "reason" => Command::Reason(self.u16("a row's number")?),
            "hold" => Command::Hold(self.range()?),
            "release" => Command::Release(self.range()?),
            "put" => Command::Put(self.put()?),
            "take" => Command::Take(self.u16("a row's number")?),
            "opener" => Command::Opener(self.probe()?),
            "desk" => Command::Desk(self.u8("a desk's number")?),
            other => return fault(name.column, format!("`{other}` is no command")),
        })
    }

    fn table(&mut self) -> Result<Table, Fault> {
        let columns = self.u8("a column count")?;
        let mut unique = 0;
        if self.take("unique") {
            unique = self.unique_column(unique)?;
            while !self.rest.is_empty() {
                unique = self.unique_column(unique)?;
            }
        }
        Ok(Table { columns, unique })
    }

    /// Adds the next column to the unique ones.
    fn unique_column(&mut self, unique: u8) -> Result<u8, Fault> {
        let bit = 1 << self.number("a unique column's number", 7)?;
        if unique & bit != 0 {
            let message = format!("column {} is named twice", self.last.text);
            return fault(self.last.column, message);
        }
        Ok(unique | bit)
    }

    fn constraint(&mut self) -> Result<Constraint, Fault> {
        let source = self.column()?;
        self.expect("->")?;
        let target = self.column()?;
        Ok(Constraint { source, target })
    }

    fn filling(&mut self) -> Result<Filling, Fault> {
        let column = self.column()?;
        let low = self.u32("the lowest candidate")?;
        self.expect("..")?;
        let high = self.u32("the highest candidate")?;
        Ok(Filling { column, low, high })
    }

    fn row(&mut self) -> Result<Row, Fault> {
        let table = self.u8("a table's number")?;
        let mut cells = Vec::new();
        while cells.len() < CELLS && !self.rest.is_empty() {
            cells.push(self.cell()?);
        }
        match self.widths.cells(table) {
            Some(columns) if cells.len() < columns => self.too_few(table, columns, cells.len()),
            _ => Ok(Row::new(table, &cells)),
        }
    }

    /// The fault that a row has fewer cells than its table has columns.
    fn too_few(&self, table: u8, columns: usize, given: usize) -> Result<Row, Fault> {
        let count = |count: usize, what: &str| match count {
            1 => format!("1 {what}"),
            _ => format!("{count} {what}s"),
        };
        let (columns, cells) = (count(columns, "column"), count(given, "cell"));
        let message = format!(
            "table {table} has {columns}, and the row {cells}; a blank cell is written `-`"
        );
        fault(self.last.column + self.last.text.len(), message)
    }

    fn put(&mut self) -> Result<Put, Fault> {
        Ok(Put {
            number: self.u16("a row's number")?,
            row: self.row()?,
        })
    }

    fn cell(&mut self) -> Result<Value, Fault> {
        let mut number = 0;
        if !self.take("-") {
            number = self.u32("a cell")?;
            if number == 0 {
                return fault(self.last.column, "a blank cell is written `-`".into());
            }
        }
        self.with_issue(number)
    }

    fn query(&mut self) -> Result<Query, Fault> {
        let Probe { column, value } = self.probe()?;
        let mut joins = Vec::new();
        while joins.len() < PAIRS && self.take("join") {
            let position = self.u8("a position")?;
            self.expect("by")?;
            let constraint = self.u8("a constraint's number")?;
            joins.push(Join {
                position,
                constraint,
            });
        }
        Ok(Query::new(column, value, &joins))
    }

    fn total(&mut self) -> Result<Total, Fault> {
        let query = self.query()?;
        self.expect("of")?;
        let position = self.u8("a position")?;
        self.expect("column")?;
        let column = self.u8("a column's number")?;
        Ok(Total {
            query,
            position,
            column,
        })
    }

    fn pair(&mut self) -> Result<Pair, Fault> {
        Ok(Pair {
            filling: self.u8("a filling's number")?,
            value: self.value()?,
        })
    }

    fn range(&mut self) -> Result<Range, Fault> {
        let filling = self.u8("a filling's number")?;
        let low = self.u32("the lowest number")?;
        self.expect("..")?;
        let high = self.u32("the highest number")?;
        Ok(Range { filling, low, high })
    }

    fn probe(&mut self) -> Result<Probe, Fault> {
        let column = self.column()?;
        self.expect("=")?;
        let value = self.value()?;
        Ok(Probe { column, value })
    }

    fn value(&mut self) -> Result<Value, Fault> {
        let number = self.u32("a value")?;
        self.with_issue(number)
    }

    /// The value of a number, with the issue that may follow it.
    fn with_issue(&mut self, number: u32) -> Result<Value, Fault> {
        let mut issue = None;
        if self.take("#") {
            issue = Some(self.u8("an issue")?);
        }
        Ok(Value { number, issue })
    }

    fn raw_bytes(&mut self) -> Result<Vec<u8>, Fault> {
        let mut bytes = vec![self.u8("a byte")?];
        while !self.rest.is_empty() {
            bytes.push(self.u8("a byte")?);
        }
        Ok(bytes)
    }

    fn column(&mut self) -> Result<Column, Fault> {
        let table = self.u8("a table's number")?;
        self.expect(".")?;
        let column = self.u8("a column's number")?;
        Ok(Column { table, column })
    }

    fn u8(&mut self, what: &str) -> Result<u8, Fault> {
        let number = self.number(what, u8::MAX.into())?;
        Ok(number as u8)
    }

    fn u16(&mut self, what: &str) -> Result<u16, Fault> {
        let number = self.number(what, u16::MAX.into())?;
        Ok(number as u16)
    }

    fn u32(&mut self, what: &str) -> Result<u32, Fault> {
        self.number(what, u32::MAX)
    }

    fn number(&mut self, what: &str, largest: u32) -> Result<u32, Fault> {
        let (digits, radix) = match self.rest.first() {
            Some(token) => match token.text.strip_prefix("0x") {
                Some(digits) => (digits, 16),
                None => (token.text, 10),
            },
            None => ("", 10),
        };
        if digits.is_empty() || !digits.chars().all(|digit| digit.is_digit(radix)) {
            return self.expected(what);
        }
        self.advance();
        match u32::from_str_radix(digits, radix) {
            Ok(number) if number <= largest => Ok(number),
            _ => fault(
                self.last.column,
                format!("{what} is at most {largest}, not {}", self.last.text),
            ),
        }
    }

    fn expect(&mut self, text: &str) -> Result<(), Fault> {
        if self.take(text) {
            Ok(())
        } else {
            self.expected(&format!("`{text}`"))
        }
    }

    fn finish(&self) -> Result<(), Fault> {
        match self.rest {
            [] => Ok(()),
            _ => self.expected("the end of the line"),
        }
    }

    /// Takes the next token if it is this one.
    fn take(&mut self, text: &str) -> bool {
        let found = self.rest.first().is_some_and(|token| token.text == text);
        if found {
            self.advance();
        }
        found
    }

    fn advance(&mut self) {
        if let Some((&token, rest)) = self.rest.split_first() {
            self.last = token;
            self.rest = rest;
        }
    }

    /// The fault that something else stands at the next token.
    fn expected<T>(&self, what: &str) -> Result<T, Fault> {
        match self.rest.first() {
            Some(token) => fault(
                token.column,
                format!("expected {what}, found `{}`", token.text),
            ),
            None => fault(
                self.last.column + self.last.text.len(),
                format!("expected {what}, found the end of the line"),
            ),
        }
    }
}

fn fault<T>(column: usize, message: String) -> Result<T, Fault> {
    Err(Fault { column, message })
}
