//! What a design decides of a column before any row is there.

use crate::design::Design;
use crate::script::Column;

/// What can come of probes of a column, whatever the rows are.
#[derive(Clone, Copy, Debug, PartialEq, Eq)]
pub struct Verdict {
    /// A load can be asked for its values: a filling has it.
    pub fetches: bool,
    /// A value is complete there once a cached row has it in the source of a constraint that
    /// ends there: the lowest such constraint whose source table can have cached rows.
    pub once_linked: Option<usize>,
    /// A value is complete there once a cached row has it there: the column is unique, and
    /// its table can have cached rows.
    pub once_unique: bool,
    /// Every value that is cached there has a ground of 1 or 2: all constraints and fillings
    /// ending at the table end at this column (document 02, Req 13).
    pub seeing_is_enough: bool,
}

impl Verdict {
    /// None of the grounds can ever apply: every probe is sent.
    pub fn never(&self) -> bool {
        !self.fetches && self.once_linked.is_none() && !self.once_unique
    }
}

impl Design {
    /// What the design decides of a column, if it has the column.
    pub fn verdict(&self, column: Column) -> Option<Verdict> {
        if !self.has(column) {
            return None;
        }
        let ends_elsewhere = |end: Column| end.table != column.table || end == column;
        let mut targets = self.constraints.iter().map(|constraint| constraint.target);
        let mut filled = self.fillings.iter().map(|filling| filling.column);
        Some(Verdict {
            fetches: filled.clone().any(|filled| filled == column),
            once_linked: self.constraints.iter().position(|constraint| {
                constraint.target == column && self.can_cache(constraint.source.table)
            }),
            once_unique: self.is_unique(column) && self.can_cache(column.table),
            seeing_is_enough: targets.all(ends_elsewhere) && filled.all(ends_elsewhere),
        })
    }

    /// Whether the table can ever have a cached row: a filling's table reaches it along
    /// constraints.
    fn can_cache(&self, table: usize) -> bool {
        let reaches = self.reaches();
        let mut fillings = self.fillings.iter();
        fillings.any(|filling| reaches[filling.column.table][table])
    }
}
