//! The design and its backend rows, read from the head of a script; and how rows come
//! and go.
//!
//! Cause 6 isn't looked at here: a repeated value shows when the rows of a
//! unique column are put into groups ([`crate::catalog`]).

use crate::{CELLS, CONSTRAINTS, ROWS, TABLES};

const LONGEST_SCRIPT: usize = 65_536;
const FILLINGS: usize = 8;

/// The bytes of a ROW command, up to its issues if it has any.
const ROW_WIDTH: usize = 34;

/// The bytes of a row that comes.
const PUT_WIDTH: usize = 44;

/// The table of a free row number.
pub const FREE: u8 = u8::MAX;

/// A number and an issue as one number, by which values are compared and ordered:
/// the number comes first, then the issue. A blank is 0.
pub type Value = u64;

/// The value of a number and an issue.
#[inline(always)]
pub fn value(number: u32, issue: u8) -> Value {
    u64::from(number) << 8 | u64::from(issue)
}

/// A value's number.
#[inline(always)]
pub fn number(value: Value) -> u32 {
    (value >> 8) as u32
}

/// A column of a table, both by number.
#[derive(Clone, Copy, Default, PartialEq, Eq)]
pub struct Column {
    /// The table.
    pub table: u8,
    /// The column's place in it.
    pub place: u8,
}

impl Column {
    /// The column's number among 64: eight for each table.
    #[inline(always)]
    pub fn number(self) -> usize {
        CELLS * usize::from(self.table) + usize::from(self.place)
    }
}

/// A constraint.
#[derive(Clone, Copy, Default, PartialEq, Eq)]
pub struct Constraint {
    /// Where the demand comes from.
    pub source: Column,
    /// Where the demanded rows are.
    pub target: Column,
}

/// A filling column with its candidates, both ends counted.
#[derive(Clone, Copy, Default)]
pub struct Filling {
    /// The filling column.
    pub column: Column,
    /// The lowest candidate.
    pub low: u32,
    /// The highest candidate.
    pub high: u32,
}

/// A cause with the place of the faulty command.
#[derive(Clone, Copy, Debug, PartialEq, Eq)]
pub struct Refusal {
    /// The cause's number.
    pub cause: u8,
    /// The byte at which the command begins.
    pub place: usize,
}

/// A design, as far as it has been read: all zeros at first.
pub struct Design {
    /// How many tables there are.
    pub tables: usize,
    /// Each table's number of columns.
    pub columns: [u8; TABLES],
    /// Each table's unique columns, bit i for column i.
    pub unique: [u8; TABLES],
    /// How many constraints there are.
    pub constraints: usize,
    /// The constraints.
    pub constraint: [Constraint; CONSTRAINTS],
    /// How many fillings there are.
    pub fillings: usize,
    /// The fillings.
    pub filling: [Filling; FILLINGS],
    /// A number that is above those of all rows; at first, how many there are.
    pub rows: usize,
    /// Each row's table, and [`FREE`] for free numbers below that.
    pub row_table: [u8; ROWS],
    /// The numbers of the cells, eight for each row.
    pub cells: [u32; CELLS * ROWS],
    /// Their issues.
    pub issues: [u8; CELLS * ROWS],
    /// The place of the first ROW.
    first_row: usize,
}

/// A u16 of a script.
#[inline(always)]
pub fn u16_at(bytes: &[u8], place: usize) -> u16 {
    u16::from_le_bytes([bytes[place], bytes[place + 1]])
}

/// A u32 of a script.
#[inline(always)]
pub fn u32_at(bytes: &[u8], place: usize) -> u32 {
    let mut four = [0; 4];
    four.copy_from_slice(&bytes[place..place + 4]);
    u32::from_le_bytes(four)
}

/// The value whose number is at a place of an operation. The bytes from 0x20 on, and
/// 0x19, have its issue at their end.
#[inline(always)]
pub fn value_at(bytes: &[u8], place: usize) -> Value {
    let issue = match bytes[0] {
        0x19 | 0x20.. => bytes[bytes.len() - 1],
        _ => 0,
    };
    value(u32_at(bytes, place), issue)
}

/// The column that an operation names first.
#[inline(always)]
pub fn column_at(bytes: &[u8]) -> Column {
    Column {
        table: bytes[1],
        place: bytes[2],
    }
}

/// How many bytes the command with this first byte has; 0 if there is none.
#[inline]
pub fn width(command: u8) -> usize {
    match command {
        0x01 | 0x18 | 0x1e => 3,
        0x02 => 5,
        0x03 => 11,
        0x04 => ROW_WIDTH,
        0x05 | 0x14 | 0x1c => 1,
        0x17 => 2,
        0x07 => ROW_WIDTH + CELLS,
        0x10 | 0x11 => 6,
        0x12 | 0x20 | 0x21 => 7,
        0x1a | 0x1b => 10,
        0x13 => 16,
        0x15 => 18,
        0x19 | 0x22 => 8,
        0x23 => 17,
        0x25 => 19,
        0x1d => PUT_WIDTH,
        _ => 0,
    }
}

impl Design {
    /// Reads a design from the head of a script, up to END or the first cause
    /// other than 6, and gives the place after END.
    pub fn read(&mut self, script: &[u8]) -> Result<usize, Refusal> {
        if script.len() > LONGEST_SCRIPT {
            return Err(Refusal { cause: 4, place: 0 });
        }
        let (mut place, mut stage) = (0, 0x01);
        loop {
            let refused = |cause| Err(Refusal { cause, place });
            let Some(&command) = script.get(place) else {
                return refused(1);
            };
            let width = width(command);
            if width == 0 {
                return refused(2);
            }
            let Some(bytes) = script.get(place..place + width) else {
                return refused(1);
            };
            // Rows with and without issues are of one kind.
            let kind = if command == 0x07 { 0x04 } else { command };
            if !(stage..=0x05).contains(&kind) {
                return refused(3);
            }
            if kind == 0x04 && self.rows == 0 {
                self.first_row = place;
            }
            match self.add(bytes) {
                0 => {}
                cause => return refused(cause),
            }
            place += width;
            stage = kind;
            if command == 0x05 {
                return Ok(place);
            }
        }
    }

    /// The refusal of a row that repeats a value of a unique column.
    pub fn repeats(&self, script: &[u8], row: usize) -> Refusal {
        let mut place = self.first_row;
        for _ in 0..row {
            place += width(script[place]);
        }
        Refusal { cause: 6, place }
    }

    /// Whether the column's numbers name one.
    #[inline(always)]
    pub fn has(&self, column: Column) -> bool {
        let table = usize::from(column.table);
        table < self.tables && column.place < self.columns[table]
    }

    /// Whether the column is unique.
    #[inline(always)]
    pub fn is_unique(&self, column: Column) -> bool {
        self.unique[usize::from(column.table)] >> column.place & 1 == 1
    }

    /// Whether the value is a candidate of the filling, which is there. Candidates
    /// go by number alone.
    #[inline(always)]
    pub fn is_candidate(&self, filling: u8, value: Value) -> bool {
        let Filling { low, high, .. } = self.filling[usize::from(filling)];
        (low..=high).contains(&number(value))
    }

    /// The value of a cell.
    #[inline(always)]
    pub fn value(&self, cell: usize) -> Value {
        value(self.cells[cell], self.issues[cell])
    }

    /// Adds what a design command says, or gives the cause of its refusal, or 0.
    fn add(&mut self, bytes: &[u8]) -> u8 {
        let column = |place: usize| Column {
            table: bytes[place],
            place: bytes[place + 1],
        };
        match bytes[0] {
            0x01 => self.add_table(bytes[1], bytes[2]),
            0x02 => self.add_constraint(Constraint {
                source: column(1),
                target: column(3),
            }),
            0x03 => self.add_filling(Filling {
                column: column(1),
                low: u32_at(bytes, 3),
                high: u32_at(bytes, 7),
            }),
            0x04 | 0x07 => self.add_row(bytes),
            _ => 0,
        }
    }

    fn add_table(&mut self, columns: u8, unique: u8) -> u8 {
        if self.tables == TABLES {
            return 4;
        }
        if !(1..=CELLS as u8).contains(&columns) || u32::from(unique) >> columns != 0 {
            return 5;
        }
        self.columns[self.tables] = columns;
        self.unique[self.tables] = unique;
        self.tables += 1;
        0
    }

    fn add_constraint(&mut self, constraint: Constraint) -> u8 {
        if self.constraints == CONSTRAINTS {
            return 4;
        }
        let before = &self.constraint[..self.constraints];
        if !self.has(constraint.source)
            || !self.has(constraint.target)
            || before.contains(&constraint)
        {
            return 5;
        }
        self.constraint[self.constraints] = constraint;
        self.constraints += 1;
        0
    }

    fn add_filling(&mut self, filling: Filling) -> u8 {
        if self.fillings == FILLINGS {
            return 4;
        }
        let mut before = self.filling[..self.fillings].iter();
        if !self.has(filling.column)
            || filling.low == 0
            || filling.low > filling.high
            || before.any(|other| other.column == filling.column)
        {
            return 5;
        }
        self.filling[self.fillings] = filling;
        self.fillings += 1;
        0
    }

    fn add_row(&mut self, bytes: &[u8]) -> u8 {
        if self.rows == ROWS {
            return 4;
        }
        let issues = &bytes[ROW_WIDTH..];
        let is_right = issues.is_empty() || issues.iter().any(|&issue| issue != 0);
        if !is_right || !self.write_row(self.rows, &bytes[1..]) {
            return 5;
        }
        self.rows += 1;
        0
    }

    /// Whether a row has the number.
    pub fn has_row(&self, number: usize) -> bool {
        number < self.rows && self.row_table[number] != FREE
    }

    /// Puts in a row at a number, or gives the cause of its refusal, or 0. Cause 6 isn't
    /// looked at.
    pub fn put_row(&mut self, number: usize, bytes: &[u8]) -> u8 {
        if number >= ROWS || self.has_row(number) {
            return 5;
        }
        if !self.write_row(number, &bytes[3..]) {
            self.clear_row(number);
            return 5;
        }
        if self.rows <= number {
            self.row_table[self.rows..number].fill(FREE);
            self.rows = number + 1;
        }
        0
    }

    /// Frees a number.
    pub fn clear_row(&mut self, number: usize) {
        self.row_table[number] = FREE;
        self.cells[CELLS * number..][..CELLS].fill(0);
        self.issues[CELLS * number..][..CELLS].fill(0);
    }

    /// Writes a row's table, cells and issues, if there are any. Gives whether they are
    /// right: nothing past the columns, and no blank with an issue.
    fn write_row(&mut self, number: usize, bytes: &[u8]) -> bool {
        let table = usize::from(bytes[0]);
        if table >= self.tables {
            return false;
        }
        let columns = usize::from(self.columns[table]);
        let cells = &mut self.cells[CELLS * number..][..CELLS];
        for (place, cell) in cells.iter_mut().enumerate() {
            *cell = u32_at(bytes, 1 + 4 * place);
            if place >= columns && *cell != 0 {
                return false;
            }
        }
        self.row_table[number] = bytes[0];
        let issues = &bytes[1 + 4 * CELLS..];
        let is_on_a_blank = |(&number, &issue): (&u32, &u8)| number == 0 && issue != 0;
        if cells.iter().zip(issues).any(is_on_a_blank) {
            return false;
        }
        self.issues[CELLS * number..][..issues.len()].copy_from_slice(issues);
        true
    }
}
