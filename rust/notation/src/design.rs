//! A design as lists of its parts, for programs that make scripts.

use crate::command::{Column, Command, Constraint, Filling, Row, Table, Value};

/// The parts of a design, each in script order. Nothing is checked.
#[derive(Clone, Debug, Default, PartialEq, Eq)]
pub struct Design {
    /// The tables.
    pub tables: Vec<Table>,
    /// The constraints.
    pub constraints: Vec<Constraint>,
    /// The fillings.
    pub fillings: Vec<Filling>,
    /// The backend rows of all tables.
    pub rows: Vec<Row>,
}

impl Design {
    /// Adds a row whose cells past the given ones are blank.
    pub fn add_row<V: Copy + Into<Value>>(&mut self, table: u8, given: &[V]) {
        self.rows.push(Row::new(table, given));
    }

    /// The columns of all tables.
    pub fn columns(&self) -> Vec<Column> {
        let of_table = |(table, columns)| (0..columns).map(move |column| Column { table, column });
        let numbered = (0..).zip(self.tables.iter().map(|table| table.columns));
        numbered.flat_map(of_table).collect()
    }

    /// The design's commands, up to and with END.
    pub fn commands(&self) -> Vec<Command> {
        let tables = self.tables.iter().copied().map(Command::Table);
        let constraints = self.constraints.iter().copied().map(Command::Constraint);
        let fillings = self.fillings.iter().copied().map(Command::Filling);
        let rows = self.rows.iter().copied().map(Command::Row);
        tables
            .chain(constraints)
            .chain(fillings)
            .chain(rows)
            .chain([Command::End])
            .collect()
    }
}
