//! The design with its backend rows, how it is read from a script, and how rows come
//! and go.

use crate::refusal::{Cause, Refusal};
use crate::script::{
    read_command, Column, Command, Constraint, Filling, Pair, Range, Row, Value, BLANK, CELLS,
};

/// The longest script, in bytes.
pub const LONGEST_SCRIPT: usize = 65_536;

/// The most tables.
pub const MOST_TABLES: usize = 8;

/// The most constraints.
pub const MOST_CONSTRAINTS: usize = 16;

/// The most fillings.
pub const MOST_FILLINGS: usize = 8;

/// The most rows of all tables together.
pub const MOST_ROWS: usize = 512;

/// A table's column count and its unique columns, bit i for column i.
#[derive(Clone, Copy, Debug)]
pub struct Table {
    /// The column count.
    pub columns: usize,
    /// The unique columns.
    pub unique: usize,
}

/// An accepted design with its backend rows.
#[derive(Clone, Debug, Default)]
pub struct Design {
    /// The tables.
    pub tables: Vec<Table>,
    /// The constraints.
    pub constraints: Vec<Constraint>,
    /// The fillings.
    pub fillings: Vec<Filling>,
    /// The backend rows of all tables by their numbers. A free number has none, and
    /// neither have those past the last.
    pub rows: Vec<Option<Row>>,
}

impl Design {
    /// Reads the design at the head of a script, and gives it with the place
    /// after its END.
    pub fn read(script: &[u8]) -> Result<(Design, usize), Refusal> {
        if script.len() > LONGEST_SCRIPT {
            return Err(Refusal {
                cause: Cause::TooMany,
                place: 0,
            });
        }
        let mut design = Design::default();
        let mut stage = Stage::Tables;
        let mut place = 0;
        while stage != Stage::Ended {
            (stage, place) = design
                .read_next(script, place, stage)
                .map_err(|cause| Refusal { cause, place })?;
        }
        Ok((design, place))
    }

    /// Reads one design command, and gives the stage and the place after it.
    fn read_next(
        &mut self,
        script: &[u8],
        place: usize,
        stage: Stage,
    ) -> Result<(Stage, usize), Cause> {
        let (command, next) = read_command(script, place)?;
        let reached = Stage::of(&command).ok_or(Cause::OutOfOrder)?;
        Cause::OutOfOrder.unless(stage <= reached)?;
        self.add(command)?;
        Ok((reached, next))
    }

    fn add(&mut self, command: Command) -> Result<(), Cause> {
        match command {
            Command::Table { columns, unique } => self.add_table(Table { columns, unique }),
            Command::Constraint(constraint) => self.add_constraint(constraint),
            Command::Filling(filling) => self.add_filling(filling),
            Command::Row(row) => self.add_row(row),
            Command::RowWithIssues(row) => self.add_row_with_issues(row),
            // END adds nothing, and operations have been refused by now.
            _ => Ok(()),
        }
    }

    pub(crate) fn add_table(&mut self, table: Table) -> Result<(), Cause> {
        Cause::TooMany.unless(self.tables.len() < MOST_TABLES)?;
        Cause::WrongOperand.unless((1..=CELLS).contains(&table.columns))?;
        Cause::WrongOperand.unless(table.unique >> table.columns == 0)?;
        self.tables.push(table);
        Ok(())
    }

    pub(crate) fn add_constraint(&mut self, constraint: Constraint) -> Result<(), Cause> {
        Cause::TooMany.unless(self.constraints.len() < MOST_CONSTRAINTS)?;
        Cause::WrongOperand.unless(self.has(constraint.source))?;
        Cause::WrongOperand.unless(self.has(constraint.target))?;
        Cause::WrongOperand.unless(!self.constraints.contains(&constraint))?;
        self.constraints.push(constraint);
        Ok(())
    }

    pub(crate) fn add_filling(&mut self, filling: Filling) -> Result<(), Cause> {
        let taken = self.fillings.iter().any(|f| f.column == filling.column);
        Cause::TooMany.unless(self.fillings.len() < MOST_FILLINGS)?;
        Cause::WrongOperand.unless(self.has(filling.column))?;
        Cause::WrongOperand.unless(0 < filling.low && filling.low <= filling.high)?;
        Cause::WrongOperand.unless(!taken)?;
        self.fillings.push(filling);
        Ok(())
    }

    fn add_row(&mut self, row: Row) -> Result<(), Cause> {
        Cause::TooMany.unless(self.rows.len() < MOST_ROWS)?;
        self.check_row(&row)?;
        self.rows.push(Some(row));
        Ok(())
    }

    /// Puts in a row at a free number.
    pub fn put_row(&mut self, number: usize, row: Row) -> Result<(), Cause> {
        Cause::WrongOperand.unless(number < MOST_ROWS)?;
        self.put_row_anywhere(number, row)
    }

    /// Puts in a row at a free number, however large: a backend of any number of rows.
    pub(crate) fn put_row_anywhere(&mut self, number: usize, row: Row) -> Result<(), Cause> {
        Cause::WrongOperand.unless(!self.has_row(number))?;
        self.check_row(&row)?;
        if self.rows.len() <= number {
            self.rows.resize(number + 1, None);
        }
        self.rows[number] = Some(row);
        Ok(())
    }

    /// Takes out the row with a number.
    pub fn take_row(&mut self, number: usize) -> Result<(), Cause> {
        Cause::WrongOperand.unless(self.has_row(number))?;
        self.rows[number] = None;
        Ok(())
    }

    /// Whether a row has the number.
    pub fn has_row(&self, number: usize) -> bool {
        self.rows.get(number).is_some_and(Option::is_some)
    }

    /// Looks at a row's operands, and then at unique columns among all rows.
    fn check_row(&self, row: &Row) -> Result<(), Cause> {
        let table = *self.tables.get(row.table).ok_or(Cause::WrongOperand)?;
        let (used, unused) = row.cells.split_at(table.columns);
        Cause::WrongOperand.unless(unused.iter().all(|&cell| cell == BLANK))?;
        let no_blank_has_an_issue = used.iter().all(|cell| cell.number != 0 || cell.issue == 0);
        Cause::WrongOperand.unless(no_blank_has_an_issue)?;
        let twice = (0..table.columns).any(|column| {
            let cell = row.cells[column];
            let column = Column {
                table: row.table,
                column,
            };
            self.is_unique(column) && self.has_value(column, cell)
        });
        Cause::ValueTwice.unless(!twice)
    }

    /// Adds a row whose command is used only where an issue isn't 0.
    fn add_row_with_issues(&mut self, row: Row) -> Result<(), Cause> {
        Cause::TooMany.unless(self.rows.len() < MOST_ROWS)?;
        Cause::WrongOperand.unless(row.cells.iter().any(|cell| cell.issue != 0))?;
        self.add_row(row)
    }

    fn has_value(&self, column: Column, value: Value) -> bool {
        (0..self.rows.len()).any(|row| self.equals(row, column, value))
    }

    /// Whether the column's numbers name one.
    pub fn has(&self, column: Column) -> bool {
        self.tables
            .get(column.table)
            .is_some_and(|table| column.column < table.columns)
    }

    /// Whether the column is unique.
    pub fn is_unique(&self, column: Column) -> bool {
        self.tables[column.table].unique >> column.column & 1 == 1
    }

    /// Whether the row is of the column's table and equals the value there. A
    /// blank equals nothing.
    pub fn equals(&self, row: usize, column: Column, value: Value) -> bool {
        value != BLANK && self.cell(row, column) == Some(value)
    }

    /// Whether the pair's value is a candidate of its filling. Candidates go by number
    /// alone.
    pub fn is_candidate(&self, pair: Pair) -> bool {
        let filling = self.fillings[pair.filling];
        (filling.low..=filling.high).contains(&pair.value.number)
    }

    /// Whether the range is wholly of candidates of its filling.
    pub fn are_candidates(&self, range: Range) -> bool {
        let filling = self.fillings[range.filling];
        filling.low <= range.low && range.high <= filling.high
    }

    /// The cell of a row in a column of its table.
    pub fn cell(&self, row: usize, column: Column) -> Option<Value> {
        let row = self.rows[row].filter(|row| row.table == column.table)?;
        Some(row.cells[column.column])
    }

    /// The values that the row has in filling columns, but for blanks.
    pub fn pairs_of(&self, row: usize) -> impl Iterator<Item = Pair> + '_ {
        let fillings = self.fillings.iter().enumerate();
        let pairs = fillings.filter_map(move |(number, filling)| {
            let value = self.cell(row, filling.column)?;
            Some(Pair {
                filling: number,
                value,
            })
        });
        pairs.filter(|pair| pair.value != BLANK)
    }

    /// Whether the constraint demands the row `target` of the row `source`.
    pub fn demands(&self, constraint: Constraint, source: usize, target: usize) -> bool {
        let cell = self.cell(source, constraint.source);
        cell.is_some_and(|cell| self.equals(target, constraint.target, cell))
    }
}

/// How far a design has been read: the kind of its last command.
#[derive(Clone, Copy, PartialEq, Eq, PartialOrd, Ord)]
enum Stage {
    Tables,
    Constraints,
    Fillings,
    Rows,
    Ended,
}

impl Stage {
    /// The stage that a design command belongs to; an operation has none.
    fn of(command: &Command) -> Option<Stage> {
        match command {
            Command::Table { .. } => Some(Stage::Tables),
            Command::Constraint(_) => Some(Stage::Constraints),
            Command::Filling(_) => Some(Stage::Fillings),
            Command::Row(_) | Command::RowWithIssues(_) => Some(Stage::Rows),
            Command::End => Some(Stage::Ended),
            Command::Refer(_)
            | Command::Drop(_)
            | Command::Probe(_)
            | Command::Query(_)
            | Command::Even
            | Command::Total(_)
            | Command::Knot
            | Command::Desk(_)
            | Command::Reason(_)
            | Command::Hold(_)
            | Command::Release(_)
            | Command::Put { .. }
            | Command::Take(_)
            | Command::Opener(_) => None,
        }
    }
}
