//! Why something is refused.

use core::error::Error;
use core::fmt;

use crate::operand::{Column, Range, Value};

/// A cause of refusal, by its number in the scope document.
///
/// ```
/// use wurzsige::{Cause, Desk};
///
/// let cause = Desk::open(&[]).unwrap_err().cause;
/// assert_eq!(cause, Cause::TooFewBytes);
/// assert_eq!(cause.to_string(), "too few bytes for a command, or no END");
/// ```
#[derive(Clone, Copy, Debug, PartialEq, Eq, Hash)]
#[repr(u8)]
#[non_exhaustive]
pub enum Cause {
    /// Too few bytes for a command, or no END.
    TooFewBytes = 1,
    /// Unknown command byte.
    UnknownCommand = 2,
    /// Command out of its order.
    OutOfOrder = 3,
    /// Over 65,536 script bytes, or a largest count passed.
    TooMany = 4,
    /// Operand wrong: it names nothing, or stands where none may.
    WrongOperand = 5,
    /// A unique column gets a value other than blank twice.
    ValueTwice = 6,
    /// Lent memory too short. A desk of this crate is never too short.
    TooShort = 7,
    /// The desk holds 16 values already, or would hold more than 8 ranges.
    NoPlaceFree = 8,
    /// Value 0 in an operation.
    ValueZero = 9,
    /// The value or range that is dropped isn't held by the desk.
    NotHeld = 10,
    /// The lists need more words than are lent, or the reason more text.
    AnswerTooLong = 11,
    /// Lent memory unlawful: nothing that the library leaves. Only
    /// [`Desk::from_memory`](crate::Desk::from_memory) finds this.
    Unlawful = 12,
    /// A total above 2^64 - 1.
    TotalTooLarge = 13,
    /// The library that is linked isn't of this crate's version. No cause of the document.
    OtherVersion = 255,
}

impl Cause {
    /// All causes, by their numbers.
    ///
    /// ```
    /// use wurzsige::Cause;
    ///
    /// assert_eq!(Cause::ALL[..13].iter().map(|cause| cause.number()).max(), Some(13));
    /// ```
    pub const ALL: &[Cause] = &[
        Cause::TooFewBytes,
        Cause::UnknownCommand,
        Cause::OutOfOrder,
        Cause::TooMany,
        Cause::WrongOperand,
        Cause::ValueTwice,
        Cause::TooShort,
        Cause::NoPlaceFree,
        Cause::ValueZero,
        Cause::NotHeld,
        Cause::AnswerTooLong,
        Cause::Unlawful,
        Cause::TotalTooLarge,
        Cause::OtherVersion,
    ];

    /// The number: from 1 to 13, or 255.
    ///
    /// ```
    /// assert_eq!(wurzsige::Cause::Unlawful.number(), 12);
    /// ```
    pub fn number(self) -> u8 {
        self as u8
    }

    /// The cause with a number, if it is one.
    ///
    /// ```
    /// use wurzsige::Cause;
    /// assert_eq!(Cause::with_number(9), Some(Cause::ValueZero));
    /// assert_eq!(Cause::with_number(14), None);
    /// ```
    pub fn with_number(number: u8) -> Option<Cause> {
        let mut all = Cause::ALL.iter().copied();
        all.find(|cause| cause.number() == number)
    }
}

/// What is wrong, in the document's words.
impl fmt::Display for Cause {
    fn fmt(&self, out: &mut fmt::Formatter<'_>) -> fmt::Result {
        out.write_str(match self {
            Cause::TooFewBytes => "too few bytes for a command, or no END",
            Cause::UnknownCommand => "unknown command byte",
            Cause::OutOfOrder => "command out of its order",
            Cause::TooMany => {
                "over 65,536 script bytes, or a largest count of tables, constraints, fillings \
                 or rows passed"
            }
            Cause::WrongOperand => "operand wrong",
            Cause::ValueTwice => "a unique column gets a value other than blank twice",
            Cause::TooShort => "lent buffer too short",
            Cause::NoPlaceFree => {
                "the desk holds 16 values already, or would hold more than 8 ranges"
            }
            Cause::ValueZero => "value 0 in an operation",
            Cause::NotHeld => "drop of a value or range that the desk does not hold",
            Cause::AnswerTooLong => "the answer needs more words or text than are lent",
            Cause::Unlawful => "lent state unlawful",
            Cause::TotalTooLarge => "a total above 2 to the power 64 less 1",
            Cause::OtherVersion => "the library that is linked is of another version",
        })
    }
}

impl Error for Cause {}

/// A refusal. It leaves everything as it was.
///
/// ```
/// use wurzsige::{Cause, Column, Desk, Operand};
///
/// // Of a script: the place at which the faulty command begins.
/// let refusal = Desk::open(&[0x01, 2, 0, 0xff]).unwrap_err();
/// assert_eq!((refusal.cause, refusal.place), (Cause::UnknownCommand, Some(3)));
/// assert_eq!(refusal.to_string(), "refused for cause 2 at byte 3: unknown command byte");
///
/// // Of a method: the operand that is wrong.
/// let desk = Desk::open(&[0x01, 2, 0, 0x05])?;
/// let refusal = desk.probe(Column::new(0, 2), 7).unwrap_err();
/// assert_eq!(refusal.operand, Some(Operand::Column(Column::new(0, 2))));
/// assert_eq!(refusal.to_string(), "refused for cause 5, operand wrong: column 0.2");
/// # Ok::<(), wurzsige::Refusal>(())
/// ```
#[derive(Clone, Copy, Debug, PartialEq, Eq, Hash)]
#[non_exhaustive]
pub struct Refusal {
    /// Why.
    pub cause: Cause,
    /// The byte of the script at which the faulty command begins; 0 for an over-long
    /// script. An operation that is called as a method has no script and no place.
    pub place: Option<usize>,
    /// The operand of a method that is wrong, where it is an operand by itself that is.
    pub operand: Option<Operand>,
}

impl Refusal {
    /// The same of a method, which has no place, with the operand that is wrong.
    pub(crate) fn of_method(self, operand: Option<Operand>) -> Refusal {
        Refusal {
            place: None,
            operand,
            ..self
        }
    }
}

impl fmt::Display for Refusal {
    fn fmt(&self, out: &mut fmt::Formatter<'_>) -> fmt::Result {
        let cause = self.cause;
        write!(out, "refused for cause {}", cause.number())?;
        match (self.place, self.operand) {
            (_, Some(operand)) => write!(out, ", {cause}: {operand}"),
            (Some(place), None) => write!(out, " at byte {place}: {cause}"),
            (None, None) => write!(out, ": {cause}"),
        }
    }
}

impl Error for Refusal {}

/// An operand that is wrong, with what was given.
///
/// ```
/// use wurzsige::{Builder, Named::Plain, Operand};
///
/// let mut builder = Builder::new();
/// let [ward] = builder.table("wards", [Plain("ward")]);
/// builder.filling(ward, 1..=99);
/// let mut desk = builder.open()?;
/// let operand = |refusal: wurzsige::Refusal| refusal.operand;
/// assert_eq!(desk.refer(1, 3).map_err(operand), Err(Some(Operand::Filling(1))));
/// assert_eq!(desk.refer(0, 0).map_err(operand), Err(Some(Operand::Value(0.into()))));
/// assert_eq!(desk.name_desk(4).map_err(operand), Err(Some(Operand::Desk(4))));
/// assert_eq!(Operand::Desk(4).to_string(), "desk 4");
/// # Ok::<(), wurzsige::DesignRefusal>(())
/// ```
#[derive(Clone, Copy, Debug, PartialEq, Eq, Hash)]
#[non_exhaustive]
pub enum Operand {
    /// A table that isn't there.
    Table(u8),
    /// A column that isn't there, or that has a filling already.
    Column(Column),
    /// A filling that isn't there.
    Filling(u8),
    /// A value whose number is 0, or that isn't held.
    Value(Value),
    /// A range that isn't held.
    Range(Range),
    /// Low 0.
    Low(u32),
    /// High below low.
    High(u32),
    /// More joins than there may be.
    Joins(usize),
    /// A join's position that isn't there yet. Joins are counted from 0.
    JoinPosition {
        /// The join.
        join: usize,
        /// The position.
        position: u8,
    },
    /// A join's constraint that isn't there, or doesn't start at the table of the join's
    /// position.
    JoinConstraint {
        /// The join.
        join: usize,
        /// The constraint.
        constraint: u8,
    },
    /// A total's position that isn't there.
    Position(u8),
    /// A total's column that isn't there in the table of its position.
    CellColumn(u8),
    /// The number of no row, or of one that is there already, or above 511.
    Row(u16),
    /// The cell of a row in a column: past the table's columns, a blank with an issue, or
    /// a value that the unique column has already.
    Cell(u8),
    /// A desk above 3.
    Desk(u8),
    /// A table's number of columns, outside 1 to 8.
    Columns(usize),
    /// A constraint's source that isn't there.
    Source(Column),
    /// A constraint's target that isn't there.
    Target(Column),
    /// The number of a constraint that is the same.
    Twice(u8),
}

/// What it is, with its number.
impl fmt::Display for Operand {
    fn fmt(&self, out: &mut fmt::Formatter<'_>) -> fmt::Result {
        match self {
            Operand::Table(table) => write!(out, "table {table}"),
            Operand::Column(column) => write!(out, "column {column}"),
            Operand::Filling(filling) => write!(out, "filling {filling}"),
            Operand::Value(Value { number: 0, .. }) => write!(out, "value 0"),
            Operand::Value(value) => write!(out, "value {value}"),
            Operand::Range(range) => write!(out, "range {range}"),
            Operand::Low(low) => write!(out, "low {low}"),
            Operand::High(high) => write!(out, "high {high}"),
            Operand::Joins(joins) => write!(out, "{joins} joins"),
            Operand::JoinPosition { join, position } => {
                write!(out, "position {position} of join {join}")
            }
            Operand::JoinConstraint { join, constraint } => {
                write!(out, "constraint {constraint} of join {join}")
            }
            Operand::Position(position) => write!(out, "position {position}"),
            Operand::CellColumn(column) => write!(out, "the cell's column {column}"),
            Operand::Row(row) => write!(out, "row {row}"),
            Operand::Cell(column) => write!(out, "the cell in column {column}"),
            Operand::Desk(desk) => write!(out, "desk {desk}"),
            Operand::Columns(columns) => write!(out, "{columns} columns"),
            Operand::Source(source) => write!(out, "source {source}"),
            Operand::Target(target) => write!(out, "target {target}"),
            Operand::Twice(constraint) => write!(out, "the same as constraint {constraint}"),
        }
    }
}
