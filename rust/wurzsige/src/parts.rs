//! What a desk has: the parts of its design, and what is held.

use alloc::vec::Vec;
use core::fmt;

use wurzsige_sys::{DESIGN_WORDS, DESKS, Memory};

use crate::operand::{Column, Range, Row, Value};

/// How much of each kind there is.
///
/// ```
/// use wurzsige::Desk;
///
/// // A table of two columns, and nothing else.
/// let desk = Desk::open(&[0x01, 2, 0, 0x05])?;
/// assert_eq!(desk.counts().tables, 1);
/// assert_eq!(desk.counts().to_string(), "design 1 0 0 0");
/// # Ok::<(), wurzsige::Refusal>(())
/// ```
#[derive(Clone, Copy, Debug, PartialEq, Eq)]
#[non_exhaustive]
pub struct Counts {
    /// Tables.
    pub tables: usize,
    /// Constraints.
    pub constraints: usize,
    /// Fillings.
    pub fillings: usize,
    /// Backend rows.
    pub rows: usize,
}

/// As the report has it.
impl fmt::Display for Counts {
    fn fmt(&self, out: &mut fmt::Formatter<'_>) -> fmt::Result {
        let Counts {
            tables,
            constraints,
            fillings,
            rows,
        } = self;
        write!(out, "design {tables} {constraints} {fillings} {rows}")
    }
}

/// The tables, constraints and fillings of a design, each by number from 0.
///
/// ```
/// use wurzsige::{Builder, Column, Named::{Plain, Unique}};
///
/// let mut builder = Builder::new();
/// let [number, ward] = builder.table("subjects", [Unique("number"), Plain("ward")]);
/// let [_, subject] = builder.table("recordings", [Unique("number"), Plain("subject")]);
/// builder.constraint(number, subject);
/// builder.filling(ward, 1..=99);
///
/// let design = builder.open()?.design();
/// assert_eq!(design.tables.len(), 2);
/// assert_eq!(design.constraints[0].target, Column::new(1, 1));
/// assert_eq!((design.fillings[0].low, design.fillings[0].high), (1, 99));
/// assert!(design.has(ward) && !design.has(Column::new(0, 2)));
/// # Ok::<(), wurzsige::DesignRefusal>(())
/// ```
#[derive(Clone, Debug, Default, PartialEq, Eq)]
#[non_exhaustive]
pub struct Design {
    /// The tables.
    pub tables: Vec<Table>,
    /// The constraints.
    pub constraints: Vec<Constraint>,
    /// The fillings.
    pub fillings: Vec<Filling>,
}

/// A table of a design.
///
/// ```
/// use wurzsige::Table;
///
/// let table = Table { columns: 3, unique: 0b101 };
/// assert!(table.is_unique(0) && !table.is_unique(1) && table.is_unique(2));
/// assert!(!table.is_unique(200));
/// ```
#[derive(Clone, Copy, Debug, PartialEq, Eq, Hash)]
pub struct Table {
    /// How many columns it has.
    pub columns: u8,
    /// Bit i is for column i: no value but blank stands there twice.
    pub unique: u8,
}

impl Table {
    /// Whether a column is unique.
    ///
    /// ```
    /// use wurzsige::Table;
    ///
    /// assert!(Table { columns: 2, unique: 0b01 }.is_unique(0));
    /// ```
    pub fn is_unique(&self, column: u8) -> bool {
        column < 8 && self.unique >> column & 1 == 1
    }
}

/// A constraint: for every cached row of the source's table, all rows that have its value
/// in the target are cached too.
///
/// ```
/// use wurzsige::{Column, Constraint};
///
/// let constraint = Constraint { source: Column::new(0, 0), target: Column::new(1, 1) };
/// assert_eq!(constraint.to_string(), "0.0 -> 1.1");
/// ```
#[derive(Clone, Copy, Debug, PartialEq, Eq, Hash)]
pub struct Constraint {
    /// Where it starts.
    pub source: Column,
    /// Where it ends.
    pub target: Column,
}

/// As the notation writes it.
impl fmt::Display for Constraint {
    fn fmt(&self, out: &mut fmt::Formatter<'_>) -> fmt::Result {
        write!(out, "{} -> {}", self.source, self.target)
    }
}

/// A filling: a column and the numbers that can be loaded into it, both ends counted.
///
/// ```
/// use wurzsige::{Column, Filling};
///
/// let filling = Filling { column: Column::new(0, 1), low: 1, high: 99 };
/// assert!(filling.has(99) && !filling.has(100));
/// assert_eq!(filling.to_string(), "0.1 1..99");
/// ```
#[derive(Clone, Copy, Debug, PartialEq, Eq, Hash)]
pub struct Filling {
    /// The column.
    pub column: Column,
    /// The lowest candidate.
    pub low: u32,
    /// The highest candidate.
    pub high: u32,
}

impl Filling {
    /// Whether a number is a candidate, with whatever issue.
    ///
    /// ```
    /// use wurzsige::{Column, Filling};
    ///
    /// assert!(!Filling { column: Column::new(0, 1), low: 1, high: 99 }.has(100));
    /// ```
    pub fn has(&self, number: u32) -> bool {
        (self.low..=self.high).contains(&number)
    }
}

/// As the notation writes it.
impl fmt::Display for Filling {
    fn fmt(&self, out: &mut fmt::Formatter<'_>) -> fmt::Result {
        write!(out, "{} {}..{}", self.column, self.low, self.high)
    }
}

impl Design {
    /// Whether a column is there.
    ///
    /// ```
    /// use wurzsige::{Column, Desk};
    ///
    /// let design = Desk::open(&[0x01, 2, 0, 0x05])?.design();
    /// assert!(design.has(Column::new(0, 1)) && !design.has(Column::new(1, 0)));
    /// # Ok::<(), wurzsige::Refusal>(())
    /// ```
    pub fn has(&self, column: Column) -> bool {
        let table = self.tables.get(usize::from(column.table));
        table.is_some_and(|table| column.column < table.columns)
    }
}

/// A value that one of the four desks holds.
///
/// ```
/// use wurzsige::{Builder, Held, Named::Plain};
///
/// let mut builder = Builder::new();
/// let [ward] = builder.table("wards", [Plain("ward")]);
/// builder.filling(ward, 1..=99);
/// let mut desk = builder.open()?;
/// desk.name_desk(2)?;
/// desk.refer(0, 3)?;
/// assert_eq!(desk.held(), [Held { desk: 2, filling: 0, value: 3.into() }]);
/// # Ok::<(), Box<dyn std::error::Error>>(())
/// ```
#[derive(Clone, Copy, Debug, PartialEq, Eq, Hash)]
pub struct Held {
    /// The desk, from 0 to 3.
    pub desk: u8,
    /// The filling's number.
    pub filling: u8,
    /// The value.
    pub value: Value,
}

/// The words of a part that begins at a place.
fn words<const N: usize>(all: &[u32], at: usize) -> [u32; N] {
    let words = all[at..at + N].try_into();
    words.expect("so many words were taken")
}

/// A word that stands for a byte.
fn byte(word: u32) -> u8 {
    u8::try_from(word).expect("a desk's word that stands for a byte is below 256")
}

fn column(table: u32, column: u32) -> Column {
    Column::new(byte(table), byte(column))
}

pub(crate) fn design_in(memory: &Memory) -> Design {
    let design = memory.design();
    let [tables, constraints, fillings] = words(design, 0);
    let table = |number: usize| {
        let [columns, unique] = words(design, 3 + 2 * number).map(byte);
        Table { columns, unique }
    };
    let constraint = |number: usize| {
        let [a, b, c, d] = words(design, 19 + 4 * number);
        Constraint {
            source: column(a, b),
            target: column(c, d),
        }
    };
    let filling = |number: usize| {
        let [a, b, low, high] = words(design, 83 + 4 * number);
        Filling {
            column: column(a, b),
            low,
            high,
        }
    };
    Design {
        tables: (0..tables as usize).map(table).collect(),
        constraints: (0..constraints as usize).map(constraint).collect(),
        fillings: (0..fillings as usize).map(filling).collect(),
    }
}

/// The words of a design: what [`design_in`] reads. Of more parts than there may be only the
/// count goes across, for which the desk refuses the design.
pub(crate) fn words_of(design: &Design) -> [u32; DESIGN_WORDS] {
    let mut words = [0; DESIGN_WORDS];
    let count = |parts: usize| u32::try_from(parts).unwrap_or(u32::MAX);
    words[0] = count(design.tables.len());
    words[1] = count(design.constraints.len());
    words[2] = count(design.fillings.len());
    for (table, place) in design.tables.iter().zip(words[3..19].chunks_exact_mut(2)) {
        place.copy_from_slice(&[table.columns, table.unique].map(u32::from));
    }
    let constraints = words[19..83].chunks_exact_mut(4);
    for (constraint, place) in design.constraints.iter().zip(constraints) {
        let Constraint { source, target } = constraint;
        let ends = [source.table, source.column, target.table, target.column];
        place.copy_from_slice(&ends.map(u32::from));
    }
    for (filling, place) in design.fillings.iter().zip(words[83..].chunks_exact_mut(4)) {
        let Filling { column, low, high } = *filling;
        place.copy_from_slice(&[column.table.into(), column.column.into(), low, high]);
    }
    words
}

pub(crate) fn held_in(memory: &Memory) -> Vec<Held> {
    let held = memory.held();
    let value = |place: usize| {
        let [desk, filling, number, issue] = words(held, 2 + 4 * place);
        Held {
            desk: byte(desk),
            filling: byte(filling),
            value: (number, byte(issue)).into(),
        }
    };
    (0..held[1] as usize).map(value).collect()
}

/// The ranges of one of the four desks; none of a desk that isn't there.
pub(crate) fn ranges_in(memory: &Memory, desk: u8) -> Vec<Range> {
    if usize::from(desk) >= DESKS {
        return Vec::new();
    }
    let held = memory.held();
    let start = 258 + 25 * usize::from(desk);
    let range = |place: usize| {
        let [filling, low, high] = words(held, start + 1 + 3 * place);
        let filling = byte(filling);
        Range { filling, low, high }
    };
    (0..held[start] as usize).map(range).collect()
}

/// The row with a number, if the number isn't free.
pub(crate) fn row_in(memory: &Memory, number: u16) -> Option<Row> {
    let number = usize::from(number);
    let table = *memory.tables().get(number)?;
    if table == wurzsige_sys::FREE {
        return None;
    }
    let mut cells = [Value::BLANK; Row::CELLS];
    for (column, cell) in cells.iter_mut().enumerate() {
        let place = Row::CELLS * number + column;
        *cell = (memory.cells()[place], memory.issues()[place]).into();
    }
    Some(Row { table, cells })
}
