//! What only the rows can show: that a value isn't of its column's kind, that a key is NULL, that a unique column has a value twice.

use design::{Code, Design, Place, Problem, Role, Spans};

use crate::bind::{Binding, BoundColumn, Part};
use crate::database::{Cell, Database};
use crate::rows::{self, cell_text, expression, not_null};
use crate::{label, Condition, Failure, Record, Value};

/// Looks through the rows wherever the catalog leaves a doubt.
pub(crate) fn look(
    database: &mut dyn Database,
    design: &Design,
    spans: &Spans,
    binding: &Binding,
) -> Result<Vec<Problem>, Failure> {
    let mut looker = Looker {
        database,
        design,
        spans,
        binding,
        problems: Vec::new(),
    };
    for place in places(design) {
        looker.strays(place)?;
        if design.column(place).role == Role::Key {
            looker.blank_key(place)?;
        }
    }
    // with values that don't fit, nothing is sure of those that are twice
    if looker.problems.is_empty() {
        for &place in &binding.uncertain {
            looker.twice(place)?;
        }
    }
    Ok(looker.problems)
}

/// Every column of a design.
fn places(design: &Design) -> Vec<Place> {
    let tables = design.tables.iter().enumerate();
    let places = tables.flat_map(|(table, declared)| {
        (0..declared.columns.len()).map(move |column| Place { table, column })
    });
    places.collect()
}

struct Looker<'a> {
    database: &'a mut dyn Database,
    design: &'a Design,
    spans: &'a Spans,
    binding: &'a Binding,
    problems: Vec<Problem>,
}

impl<'a> Looker<'a> {
    fn problem(&mut self, code: Code, place: Place, message: String, notes: Vec<String>) {
        let columns = self.spans.columns.get(place.table);
        let span = columns.and_then(|columns| columns.get(place.column));
        let problem = Problem::new(code, span.cloned().unwrap_or(0..0), message);
        let problem = notes.into_iter().fold(problem, Problem::note);
        self.problems.push(problem);
    }

    fn column(&self, place: Place) -> &'a BoundColumn {
        &self.binding.tables[place.table].columns[place.column]
    }

    fn from(&self, place: Place) -> &'a str {
        &self.binding.tables[place.table].name
    }

    /// A value that isn't of its kind, where the database's types don't rule it out.
    fn strays(&mut self, place: Place) -> Result<(), Failure> {
        let column = self.column(place);
        for part in column.parts.iter().chain(&column.issue) {
            let Some(strays) = &part.fit.strays else {
                continue;
            };
            let (value, from) = (expression(part), self.from(place));
            let sql = format!("SELECT {value} FROM {from} AS t WHERE {strays} LIMIT 1");
            let rows = self.database.rows(&sql, &[])?;
            if let Some(cell) = rows.first().and_then(|row| row.first()) {
                self.stray(place, part, cell);
            }
        }
        Ok(())
    }

    fn stray(&mut self, place: Place, part: &Part, cell: &Cell) {
        let name = self.design.column_name(place);
        let (value, kind) = (cell_text(cell), part.kind);
        let message = format!("{name} has the value {value}, and that is no {kind}");
        self.problem(Code::E031, place, message, vec![]);
    }

    /// A row without a key.
    fn blank_key(&mut self, place: Place) -> Result<(), Failure> {
        let doubtful = self.column(place).parts.iter();
        let doubtful = doubtful.filter(|part| !part.column.filled);
        let blank: Vec<String> = doubtful
            .map(|part| format!("{} IS NULL", expression(part)))
            .collect();
        if blank.is_empty() {
            return Ok(());
        }
        let (from, terms) = (self.from(place), blank.join(" OR "));
        let sql = format!("SELECT 1 FROM {from} AS t WHERE {terms} LIMIT 1");
        if !self.database.rows(&sql, &[])?.is_empty() {
            let name = self.design.column_name(place);
            let message = format!("{name} is the key, and a row has NULL there");
            let note = "help: rows are told apart by their keys: let a view leave such rows out, or take another key";
            self.problem(Code::E032, place, message, vec![note.into()]);
        }
        Ok(())
    }

    /// A value that two rows have in a unique column.
    fn twice(&mut self, place: Place) -> Result<(), Failure> {
        let column = self.column(place);
        let parts = column.parts.iter().chain(&column.issue);
        let names: Vec<String> = parts.map(expression).collect();
        let filled: Vec<String> = column.parts.iter().map(not_null).collect();
        let sql = format!(
            "SELECT {names} FROM {} AS t WHERE {} GROUP BY {names} HAVING count(*) > 1 LIMIT 1",
            self.from(place),
            filled.join(" AND "),
            names = names.join(", "),
        );
        let rows = self.database.rows(&sql, &[])?;
        let Some(cells) = rows.first() else {
            return Ok(());
        };
        let found = rows::value(&*self.database, column, cells);
        let unfit = |wrong| Failure::Unfit(format!("{} {wrong}", self.design.column_name(place)));
        let (Some(value), issue) = found.map_err(unfit)? else {
            return Ok(());
        };
        let condition = Condition::Value {
            column: place,
            value: value.clone(),
            issue,
        };
        let records = rows::fetch(self.database, self.design, self.binding, &condition)?;
        self.both(place, &value, issue, &records);
        Ok(())
    }

    fn both(&mut self, place: Place, value: &Value, issue: u8, records: &[Record]) {
        let name = self.design.column_name(place);
        let role = match self.design.column(place).role {
            Role::Key => "the key",
            _ => "declared unique",
        };
        let behind = match issue {
            0 => String::new(),
            issue => format!(" of issue {issue}"),
        };
        let message = format!("{name} is {role}, but two rows have \"{value}\"{behind}");
        let table = &self.design.tables[place.table];
        let labels = records.iter().take(2).map(|record| label(table, record));
        let labels: Vec<String> = labels.collect();
        let rest = match records.len() {
            0..=2 => String::new(),
            more => format!(", and {} more", more - 2),
        };
        let rows = format!("{}{rest}", labels.join(" and "));
        self.problem(Code::E006, place, message, vec![rows]);
    }
}
