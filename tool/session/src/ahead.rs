//! What is fetched together: what a desk lacks, and what it will lack once it has the rows that come with it. Were each round of a load a question to the library of its own,
//! the desk would be copied and tested for each.
//!
//! This only looks ahead. Whether something is missing is what the library says in the end, and it is asked then.

use std::collections::{HashSet, VecDeque};

use wurzsige::{Column, Constraint, Design, Desk, Fetch, Fetches, Row, Value};

/// Fetches to be made, in their order.
pub(crate) struct Ahead {
    design: Design,
    queue: VecDeque<Fetch>,
    /// The values of columns of which nothing more need be fetched.
    known: HashSet<(Column, Value)>,
    spans: Vec<Fetch>,
}

impl Ahead {
    /// Begins with what a desk lacks.
    pub(crate) fn new(desk: &Desk, fetches: &Fetches, lacking: &[Fetch]) -> Ahead {
        let mut ahead = Ahead {
            design: desk.design(),
            queue: lacking.iter().copied().collect(),
            known: HashSet::new(),
            spans: Vec::new(),
        };
        fetches.iter().for_each(|fetch| ahead.note(fetch));
        lacking.iter().for_each(|&fetch| ahead.note(fetch));
        desk.rows().for_each(|(_, row)| ahead.note_unique(&row));
        ahead
    }

    /// The next fetch.
    pub(crate) fn next(&mut self) -> Option<Fetch> {
        self.queue.pop_front()
    }

    /// A row that has come brings along what its links ask for.
    pub(crate) fn follow(&mut self, row: &Row) {
        self.note_unique(row);
        let is_from = |link: &&Constraint| link.source.table == row.table;
        let links: Vec<Constraint> = self
            .design
            .constraints
            .iter()
            .filter(is_from)
            .copied()
            .collect();
        for link in links {
            let value = row.cells[usize::from(link.source.column)];
            let column = link.target;
            if value != Value::BLANK && !self.is_known(column, value) {
                let fetch = Fetch::Value { column, value };
                self.note(fetch);
                self.queue.push_back(fetch);
            }
        }
    }

    fn is_known(&self, column: Column, value: Value) -> bool {
        let within = |span: &Fetch| span.covers(column, value);
        self.known.contains(&(column, value)) || self.spans.iter().any(within)
    }

    fn note(&mut self, fetch: Fetch) {
        match fetch {
            Fetch::Value { column, value } => {
                self.known.insert((column, value));
            }
            span => self.spans.push(span),
        }
    }

    /// A row is the only one with its value in a unique column.
    fn note_unique(&mut self, row: &Row) {
        let table = self.design.tables[usize::from(row.table)];
        for number in (0..table.columns).filter(|&column| table.is_unique(column)) {
            let column = Column::new(row.table, number);
            self.known.insert((column, row.cells[usize::from(number)]));
        }
    }
}
