//! What operations are about.

use alloc::vec::Vec;
use core::fmt;

/// A cell, or what an operation looks for in cells: a number and its issue. Two are
/// equal only if both are; the number 0 is blank.
///
/// ```
/// use wurzsige::Value;
///
/// assert_eq!(Value::from(7), Value { number: 7, issue: 0 });
/// assert_eq!(Value::from((7, 1)).to_string(), "7#1");
/// ```
#[derive(Clone, Copy, Debug, Default, PartialEq, Eq, PartialOrd, Ord, Hash)]
pub struct Value {
    /// The number.
    pub number: u32,
    /// The issue, which tells holders of the same number apart.
    pub issue: u8,
}

impl Value {
    /// The blank cell, which equals nothing as a cell, not even another blank.
    ///
    /// ```
    /// use wurzsige::{Row, Value};
    ///
    /// assert_eq!(Row::new(0, [7]).cells[1], Value::BLANK);
    /// assert_eq!(Value::BLANK.to_string(), "-");
    /// ```
    pub const BLANK: Value = Value {
        number: 0,
        issue: 0,
    };
}

/// The number at issue 0.
impl From<u32> for Value {
    fn from(number: u32) -> Value {
        Value { number, issue: 0 }
    }
}

/// The number and the issue.
impl From<(u32, u8)> for Value {
    fn from((number, issue): (u32, u8)) -> Value {
        Value { number, issue }
    }
}

/// As the notation writes it: `7`, or `7#1` with an issue, or `-` for blank.
impl fmt::Display for Value {
    fn fmt(&self, out: &mut fmt::Formatter<'_>) -> fmt::Result {
        match *self {
            Value::BLANK => write!(out, "-"),
            Value { number, issue: 0 } => write!(out, "{number}"),
            Value { number, issue } => write!(out, "{number}#{issue}"),
        }
    }
}

/// A column of a table, both by number from 0.
///
/// ```
/// use wurzsige::Column;
///
/// assert_eq!(Column::new(1, 0).to_string(), "1.0");
/// ```
#[derive(Clone, Copy, Debug, PartialEq, Eq, PartialOrd, Ord, Hash)]
pub struct Column {
    /// The table's number.
    pub table: u8,
    /// The column's number within the table.
    pub column: u8,
}

impl Column {
    /// Column `column` of table `table`.
    ///
    /// ```
    /// use wurzsige::Column;
    ///
    /// const WARD: Column = Column::new(0, 1);
    /// assert_eq!((WARD.table, WARD.column), (0, 1));
    /// ```
    pub const fn new(table: u8, column: u8) -> Column {
        Column { table, column }
    }
}

/// As the notation writes it: `1.0`.
impl fmt::Display for Column {
    fn fmt(&self, out: &mut fmt::Formatter<'_>) -> fmt::Result {
        write!(out, "{}.{}", self.table, self.column)
    }
}

/// One more position of a query: the rows that a constraint demands of the row at an
/// earlier position.
///
/// ```
/// use wurzsige::{Column, Join, Query};
///
/// let query = Query::new(Column::new(0, 1), 3).join(0, 2);
/// assert_eq!(query.joins, [Join { position: 0, constraint: 2 }]);
/// ```
#[derive(Clone, Copy, Debug, Default, PartialEq, Eq, Hash)]
pub struct Join {
    /// The earlier position, from 0.
    pub position: u8,
    /// The constraint's number.
    pub constraint: u8,
}

/// An equality-join query. Position 0 is a row that has the value in the column; each
/// join adds a position.
///
/// ```
/// use wurzsige::{Column, Query};
///
/// // The subjects of ward 3, their recordings, and the events of these.
/// let query = Query::new(Column::new(0, 1), 3).join(0, 0).join(1, 1);
/// assert_eq!(query.positions(), 3);
/// ```
#[derive(Clone, Debug, PartialEq, Eq, Hash)]
pub struct Query {
    /// The column that position 0 is looked up by.
    pub column: Column,
    /// The value looked up there.
    pub value: Value,
    /// The joins. More than four are refused with [`Cause::WrongOperand`].
    ///
    /// [`Cause::WrongOperand`]: crate::Cause::WrongOperand
    pub joins: Vec<Join>,
}

impl Query {
    /// A query without joins.
    ///
    /// ```
    /// use wurzsige::{Column, Query};
    ///
    /// let query = Query::new(Column::new(0, 1), (7, 1)); // the second holder of number 7
    /// assert_eq!((query.value.issue, query.joins.len()), (1, 0));
    /// ```
    pub fn new(column: Column, value: impl Into<Value>) -> Query {
        Query {
            column,
            value: value.into(),
            joins: Vec::new(),
        }
    }

    /// The query with one position more.
    ///
    /// ```
    /// use wurzsige::{Column, Query};
    ///
    /// let query = Query::new(Column::new(0, 1), 3).join(0, 2);
    /// assert_eq!((query.joins[0].position, query.joins[0].constraint), (0, 2));
    /// ```
    pub fn join(mut self, position: u8, constraint: u8) -> Query {
        self.joins.push(Join {
            position,
            constraint,
        });
        self
    }

    /// How many row numbers each of its lists has.
    ///
    /// ```
    /// use wurzsige::{Column, Query};
    ///
    /// assert_eq!(Query::new(Column::new(0, 1), 3).join(0, 2).positions(), 2);
    /// ```
    pub fn positions(&self) -> usize {
        self.joins.len() + 1
    }
}

/// A filling and a range of numbers at issue 0, both ends counted.
///
/// ```
/// use wurzsige::Range;
///
/// let week = Range { filling: 0, low: 5000, high: 5099 };
/// assert_eq!(week.to_string(), "5000..5099 of filling 0");
/// ```
#[derive(Clone, Copy, Debug, PartialEq, Eq, PartialOrd, Ord, Hash)]
pub struct Range {
    /// The filling's number.
    pub filling: u8,
    /// The lowest number.
    pub low: u32,
    /// The highest number.
    pub high: u32,
}

impl fmt::Display for Range {
    fn fmt(&self, out: &mut fmt::Formatter<'_>) -> fmt::Result {
        let Range { filling, low, high } = self;
        write!(out, "{low}..{high} of filling {filling}")
    }
}

/// A backend row.
///
/// ```
/// use wurzsige::{Row, Value};
///
/// // A recording with the second holder of subject number 7, and no technician.
/// let row = Row::new(1, [Value::from(5001), (7, 1).into(), Value::BLANK]);
/// assert_eq!(row.cells[1].to_string(), "7#1");
/// assert_eq!(Row::new(0, [7, 3]).cells[2], Value::BLANK);
/// ```
#[derive(Clone, Copy, Debug, PartialEq, Eq, Hash)]
pub struct Row {
    /// The number of the row's table.
    pub table: u8,
    /// The cells; those past the table's columns are blank.
    pub cells: [Value; Row::CELLS],
}

impl Row {
    /// Cells of every row, whatever its table.
    ///
    /// ```
    /// use wurzsige::Row;
    ///
    /// assert_eq!(Row::new(0, [7, 3]).cells.len(), Row::CELLS);
    /// ```
    pub const CELLS: usize = 8;

    /// A row whose cells past the given ones are blank. That no more than eight are
    /// given is seen when this is compiled.
    ///
    /// ```
    /// use wurzsige::{Row, Value};
    ///
    /// let row = Row::new(0, [7, 3]);
    /// assert_eq!((row.cells[1], row.cells[2]), (3.into(), Value::BLANK));
    /// ```
    ///
    /// ```compile_fail
    /// wurzsige::Row::new(0, [1, 2, 3, 4, 5, 6, 7, 8, 9]);
    /// ```
    pub fn new<V: Into<Value>, const N: usize>(table: u8, given: [V; N]) -> Row {
        const { assert!(N <= Row::CELLS, "a row has eight cells") }
        let mut cells = [Value::BLANK; Row::CELLS];
        for (cell, value) in cells.iter_mut().zip(given) {
            *cell = value.into();
        }
        Row { table, cells }
    }
}
