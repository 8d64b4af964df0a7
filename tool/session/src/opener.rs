//! What would open a probe. The desk finds it from rows that aren't cached, so some are fetched for it, on a copy that is thrown away: those that have the
//! value, then those that would bring them, and so on, a few steps back.

use design::Place;
use wurzsige::{Column, Fetch, Fetches, Value};

use crate::answers::Opener;
use crate::issued::Issued;
use crate::session::Session;
use crate::slice::{Slice, Stopped};
use crate::trouble::Trouble;

/// How many values are looked for, at most.
const MOST_FETCHES: usize = 64;

impl Session<'_> {
    /// A load that would give a probe a ground, where rows that are found soon show one.
    pub fn opener(&mut self, place: Place, value: &Issued) -> Result<Opener, Trouble> {
        self.usable()?;
        let (column, cell) = (self.column(place)?, self.cell(place, value)?);
        let mut slice = self.slice.clone();
        let mut fetches = Fetches::new();
        let mut asked = self.bringing(column, cell);
        loop {
            let found = slice.desk.opener(column, cell)?;
            if let Some(opener) = self.named(found) {
                return Ok(opener);
            }
            asked.retain(|fetch| fetches.iter().all(|made| made != *fetch));
            asked.truncate(MOST_FETCHES - fetches.iter().count());
            if asked.is_empty() {
                return Ok(Opener::NoneKnown);
            }
            let known = slice.rows.len();
            asked.iter().for_each(|&fetch| fetches.note(fetch));
            match slice.fetch_these(&mut self.feed(), &asked) {
                Ok(()) => asked.clear(),
                Err(Stopped::Failed(failure)) => return Err(failure.into()),
                Err(Stopped::Full { .. }) => return Ok(Opener::NoneKnown),
            }
            if slice.rows.len() > known {
                asked = self.one_step_back(&slice);
            }
        }
    }

    /// What the desk has found, in names; nothing if it has found none.
    fn named(&self, opener: wurzsige::Opener) -> Option<Opener> {
        match opener {
            wurzsige::Opener::Open => Some(Opener::Open),
            wurzsige::Opener::Value { filling, value } => {
                let load = usize::from(filling);
                let value = self.coder.value(self.design.loads[load].column, value)?;
                Some(Opener::Load { load, value })
            }
            _ => None,
        }
    }

    /// The rows that would make a value complete in a column if they were cached: those that have it there, if it is unique, and those that have it where a
    /// link to the column starts.
    fn bringing(&self, column: Column, value: Value) -> Vec<Fetch> {
        let design = self.slice.desk.design();
        let table = design.tables[usize::from(column.table)];
        let own = table.is_unique(column.column).then_some(column);
        let links = design.constraints.iter();
        let sources = links.filter(|link| link.target == column);
        let columns = own.into_iter().chain(sources.map(|link| link.source));
        columns
            .map(|column| Fetch::Value { column, value })
            .collect()
    }

    /// The rows that would bring those of a slice that aren't cached.
    fn one_step_back(&self, slice: &Slice) -> Vec<Fetch> {
        let design = slice.desk.design();
        let mut asked = Vec::new();
        let rows = slice.desk.rows();
        for (_, row) in rows.filter(|(number, _)| !slice.desk.is_cached(*number)) {
            for link in design
                .constraints
                .iter()
                .filter(|link| link.target.table == row.table)
            {
                let value = row.cells[usize::from(link.target.column)];
                let column = link.source;
                let fetch = Fetch::Value { column, value };
                if value != Value::BLANK && !asked.contains(&fetch) {
                    asked.push(fetch);
                }
            }
        }
        asked
    }
}
