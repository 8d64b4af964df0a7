//! Commands and their operands, as a script has them.

/// Cells in every ROW command.
pub const CELLS: usize = 8;

/// Pairs in every QUERY command, and in every total.
pub const PAIRS: usize = 4;

/// A number, and an issue if the command has a place for one. Without such a
/// place the issue is 0.
#[derive(Clone, Copy, Debug, PartialEq, Eq)]
pub struct Value {
    /// The number.
    pub number: u32,
    /// The issue.
    pub issue: Option<u8>,
}

impl From<u32> for Value {
    fn from(number: u32) -> Value {
        Value {
            number,
            issue: None,
        }
    }
}

impl Value {
    /// A number with an issue, which takes a place only if it isn't 0.
    pub fn new(number: u32, issue: u8) -> Value {
        Value {
            number,
            issue: (issue != 0).then_some(issue),
        }
    }

    /// The issue, whether there is a place for it or not.
    pub fn issue(self) -> u8 {
        self.issue.unwrap_or(0)
    }
}

/// A column of a table, both by number.
#[derive(Clone, Copy, Debug, PartialEq, Eq, Hash)]
pub struct Column {
    /// The table's number.
    pub table: u8,
    /// The column's number within the table.
    pub column: u8,
}

/// A table.
#[derive(Clone, Copy, Debug, PartialEq, Eq)]
pub struct Table {
    /// The column count.
    pub columns: u8,
    /// The unique columns, bit i for column i.
    pub unique: u8,
}

/// A link from a source column to a target column.
#[derive(Clone, Copy, Debug, PartialEq, Eq)]
pub struct Constraint {
    /// Where the demand comes from.
    pub source: Column,
    /// Where the demanded rows are.
    pub target: Column,
}

/// A filling column with its candidates, both ends counted.
#[derive(Clone, Copy, Debug, PartialEq, Eq)]
pub struct Filling {
    /// The filling column.
    pub column: Column,
    /// The lowest candidate.
    pub low: u32,
    /// The highest candidate.
    pub high: u32,
}

/// A backend row.
#[derive(Clone, Copy, Debug, PartialEq, Eq)]
pub struct Row {
    /// The row's table.
    pub table: u8,
    /// The cells' numbers.
    pub cells: [u32; CELLS],
    /// Their issues, if the command has places for them.
    pub issues: Option<[u8; CELLS]>,
}

impl Row {
    /// A row whose cells past the given ones are blank, with places for issues if
    /// one of them has a place.
    pub fn new<V: Copy + Into<Value>>(table: u8, given: &[V]) -> Row {
        let mut row = Row {
            table,
            cells: [0; CELLS],
            issues: None,
        };
        for (column, &value) in given.iter().enumerate() {
            let Value { number, issue } = value.into();
            row.cells[column] = number;
            if let Some(issue) = issue {
                row.issues.get_or_insert_default()[column] = issue;
            }
        }
        row
    }

    /// The cell of a column.
    pub fn cell(&self, column: usize) -> Value {
        let issue = self.issues.map_or(0, |issues| issues[column]);
        Value::new(self.cells[column], issue)
    }
}

/// A row that comes, with its number.
#[derive(Clone, Copy, Debug, PartialEq, Eq)]
pub struct Put {
    /// The number.
    pub number: u16,
    /// The row.
    pub row: Row,
}

/// A filling and a value, as REFER and DROP name them.
#[derive(Clone, Copy, Debug, PartialEq, Eq)]
pub struct Pair {
    /// The filling's number.
    pub filling: u8,
    /// The value.
    pub value: Value,
}

/// A filling and a range of numbers, both ends counted, at issue 0.
#[derive(Clone, Copy, Debug, PartialEq, Eq, PartialOrd, Ord)]
pub struct Range {
    /// The filling's number.
    pub filling: u8,
    /// The lowest number.
    pub low: u32,
    /// The highest number.
    pub high: u32,
}

/// A column and a value, as PROBE names them.
#[derive(Clone, Copy, Debug, PartialEq, Eq)]
pub struct Probe {
    /// The probed column.
    pub column: Column,
    /// The probed value.
    pub value: Value,
}

/// A pair of a query: an earlier position and a constraint that leads from it.
#[derive(Clone, Copy, Debug, Default, PartialEq, Eq, Hash)]
pub struct Join {
    /// The earlier position.
    pub position: u8,
    /// The constraint's number.
    pub constraint: u8,
}

/// The operands of a QUERY command. All four pairs are kept, so that a wrong
/// count or a used pair past it can be told.
#[derive(Clone, Copy, Debug, PartialEq, Eq)]
pub struct Query {
    /// The column that position 0 is looked up by.
    pub column: Column,
    /// The value looked up there.
    pub value: Value,
    /// How many of the pairs are joins.
    pub joins: u8,
    /// The joins, then the unused pairs.
    pub pairs: [Join; PAIRS],
}

impl Query {
    /// A query with the given joins, of which there are at most four.
    pub fn new(column: Column, value: impl Into<Value>, joins: &[Join]) -> Query {
        let mut pairs = [Join::default(); PAIRS];
        pairs[..joins.len()].copy_from_slice(joins);
        Query {
            column,
            value: value.into(),
            joins: joins.len() as u8,
            pairs,
        }
    }

    /// The joins, if they and their count are all that the command says.
    pub fn plain_joins(&self) -> Option<&[Join]> {
        let joins = self.pairs.get(..usize::from(self.joins))?;
        let plain = Query::new(self.column, self.value, joins);
        (plain == *self).then_some(joins)
    }
}

/// The operands of a total: a query, and the cell of its lists that is added up.
#[derive(Clone, Copy, Debug, PartialEq, Eq)]
pub struct Total {
    /// The query.
    pub query: Query,
    /// The position of the row that has the cell.
    pub position: u8,
    /// The cell's column in the table of that position.
    pub column: u8,
}

/// A command with all its operands, whether the desk would take them or not.
#[derive(Clone, Copy, Debug, PartialEq, Eq)]
pub enum Command {
    /// A table.
    Table(Table),
    /// A constraint.
    Constraint(Constraint),
    /// A filling.
    Filling(Filling),
    /// A backend row.
    Row(Row),
    /// The end of the design.
    End,
    /// Hold a value.
    Refer(Pair),
    /// Stop holding a value.
    Drop(Pair),
    /// Ask whether a value is complete in a column.
    Probe(Probe),
    /// An equality-join query.
    Query(Query),
    /// Ask whether the design is even.
    Even,
    /// The sum of a cell over a query's lists.
    Total(Total),
    /// Ask for the fewest constraints that are uneven.
    Knot,
    /// Name the desk for what follows.
    Desk(u8),
    /// Ask why a row is cached.
    Reason(u16),
    /// Hold a range.
    Hold(Range),
    /// Stop holding a range.
    Release(Range),
    /// Put in a row. It always has places for issues.
    Put(Put),
    /// Take out the row with a number.
    Take(u16),
    /// Ask for the value whose load would give a ground. It always has an issue
    /// byte.
    Opener(Probe),
}
