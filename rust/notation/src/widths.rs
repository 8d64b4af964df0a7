//! How many cells the rows of a table have, as far as a script's commands have told.

use crate::command::{Command, CELLS};

/// The column counts of the tables so far.
#[derive(Default)]
pub(crate) struct Widths {
    columns: Vec<u8>,
    ended: bool,
    lost: bool,
}

impl Widths {
    /// Sees the next command.
    pub(crate) fn see(&mut self, command: &Command) {
        match command {
            Command::Table(table) if !self.ended => self.columns.push(table.columns),
            Command::End => self.ended = true,
            _ => {}
        }
    }

    /// Sees bytes that may be any commands: from there on nothing is known.
    pub(crate) fn see_bytes(&mut self) {
        self.lost = true;
    }

    /// Sees a line that can't be read. Of a row it isn't asked how many cells it has; anything else may have been a table.
    pub(crate) fn see_faulty(&mut self, line: &str) {
        let first = line.split_whitespace().next();
        self.lost |= !matches!(first, Some("row" | "put"));
    }

    /// How many cells a row of a table has. It isn't known of a table that isn't there, or that
    /// has more or fewer columns than a table can have.
    pub(crate) fn cells(&self, table: u8) -> Option<usize> {
        let columns = usize::from(*self.columns.get(usize::from(table))?);
        (!self.lost && (1..=CELLS).contains(&columns)).then_some(columns)
    }
}
