//! A new snapshot: what came, went and changed in the database comes, goes and changes in the slice.
//!
//! What was fetched of the old snapshot is fetched of the new one, whole. The rows that are here are held against that by their keys: so a row whose value
//! has changed goes, unless another fetch has it, and one that a change has brought to a fetched value comes. After that the list of fetches is true of the new
//! snapshot, and the loop goes on from there. If there is no room for rows that nothing needs any more beside those that come, it goes on from nothing.

use std::collections::HashMap;
use std::rc::Rc;

use source::Failure;
use wurzsige::{Fetch, Row};

use crate::answers::Held;
use crate::rows::{Entry, Identity, MOST_ROWS};
use crate::session::{empty, Session};
use crate::slice::{fetched, put, remove, Slice};
use crate::trouble::{TooLarge, Trouble};

/// What a new snapshot has changed.
#[derive(Clone, Debug, PartialEq, Eq)]
pub enum Refreshed {
    /// All that was held is held, in the new snapshot.
    Kept {
        /// Rows that are cached and weren't before.
        came: usize,
        /// Rows that were cached and aren't any more.
        went: usize,
        /// Rows that are and were cached, and have changed.
        changed: usize,
    },
    /// What was held needs more rows than a desk can have in the new snapshot: all of it was dropped.
    TooLarge {
        /// The rows that it was known to need when it was broken off; it may need more.
        rows: usize,
        /// What was held.
        dropped: Vec<Held>,
    },
}

/// The rows of the new snapshot that the fetches ask for.
type Found = HashMap<Rc<Identity>, (Entry, Row)>;

impl Session<'_> {
    /// Takes a new snapshot. If that fails, nothing is answered until it succeeds: what is here would be of one snapshot, and what is fetched of another.
    pub fn refresh(&mut self) -> Result<Refreshed, Trouble> {
        let refreshed = self.refreshed();
        self.stale = refreshed.as_ref().err().cloned();
        Ok(refreshed?)
    }

    fn refreshed(&mut self) -> Result<Refreshed, Failure> {
        let mut slice = self.slice.clone();
        slice.shrink();
        self.source.refresh()?;
        let before = self.cached_rows(&self.slice);
        let renewed = match self.renewed(slice) {
            Err(Trouble::TooLarge(_)) => self.anew(),
            renewed => renewed,
        };
        match renewed {
            Ok(slice) => {
                let after = self.cached_rows(&slice);
                self.slice = slice;
                Ok(compared(&before, &after))
            }
            Err(Trouble::TooLarge(large)) => {
                let dropped = self.held();
                self.clear().map_err(failure)?;
                let rows = large.rows;
                Ok(Refreshed::TooLarge { rows, dropped })
            }
            Err(trouble) => Err(failure(trouble)),
        }
    }

    /// What is held, on a slice that has nothing else.
    fn anew(&mut self) -> Result<Slice, Trouble> {
        let mut held = Vec::new();
        for one in self.held() {
            held.push((one.desk, self.holding(one.load, &one.wanted)?));
        }
        let named = self.named_desk();
        let mut slice = empty(self.design)?;
        let performed = slice.perform(&mut self.feed(), &|desk| {
            for (number, holding) in &held {
                desk.name_desk(*number)?;
                holding.hold(desk)?;
            }
            desk.name_desk(named)
        });
        performed??;
        Ok(slice)
    }

    /// A slice, all of whose rows are cached, in the source's snapshot.
    fn renewed(&mut self, mut slice: Slice) -> Result<Slice, Trouble> {
        let mut found = self.found(&slice)?;
        let numbers: Vec<u16> = slice.rows.iter().map(|(number, _)| number).collect();
        let mut stayed = Vec::new();
        for number in numbers {
            let Some(here) = slice.rows.get(number) else {
                continue;
            };
            match found.remove(&here.identity) {
                Some((entry, _)) if entry.record == here.record => {}
                Some(changed) => {
                    remove(slice.desk_mut(), number);
                    stayed.push((number, changed));
                }
                None => {
                    remove(slice.desk_mut(), number);
                    slice.rows.remove(number);
                }
            }
        }
        for (number, (entry, row)) in stayed {
            put(self.design, slice.desk_mut(), number, &entry, &row)?;
            slice.rows.put(number, entry);
        }
        self.come(&mut slice, found)?;
        slice.perform(&mut self.feed(), &|_| Ok(()))??;
        Ok(slice)
    }

    /// All rows of the new snapshot that a slice's fetches ask for.
    fn found(&mut self, slice: &Slice) -> Result<Found, Failure> {
        let fetches: Vec<Fetch> = slice.fetches.iter().collect();
        let mut found = Found::new();
        let mut feed = self.feed();
        for fetch in fetches {
            for (entry, row) in fetched(&mut feed, fetch)? {
                found.insert(entry.identity.clone(), (entry, row));
            }
        }
        Ok(found)
    }

    /// Puts in the rows that have come, by table and key.
    fn come(&mut self, slice: &mut Slice, found: Found) -> Result<(), Trouble> {
        let rows = slice.rows.len() + found.len();
        if rows > MOST_ROWS {
            let brought = Vec::new();
            return Err(Trouble::TooLarge(TooLarge { rows, brought }));
        }
        let mut come: Vec<(Entry, Row)> = found.into_values().collect();
        come.sort_by(|(left, _), (right, _)| left.identity.cmp(&right.identity));
        for (entry, row) in come {
            let Some(number) = slice.rows.free() else {
                unreachable!("there is room for all of them");
            };
            put(self.design, slice.desk_mut(), number, &entry, &row)?;
            slice.rows.put(number, entry);
        }
        Ok(())
    }

    fn cached_rows(&self, slice: &Slice) -> HashMap<Rc<Identity>, Rc<Entry>> {
        let cached = slice.rows.iter();
        let cached = cached.filter(|(number, _)| slice.desk.is_cached(*number));
        cached
            .map(|(_, entry)| (entry.identity.clone(), Rc::clone(entry)))
            .collect()
    }
}

/// What keeps a new snapshot from being read.
fn failure(trouble: Trouble) -> Failure {
    match trouble {
        Trouble::Failed(failure) => failure,
        other => Failure::Unfit(other.to_string()),
    }
}

fn compared(
    before: &HashMap<Rc<Identity>, Rc<Entry>>,
    after: &HashMap<Rc<Identity>, Rc<Entry>>,
) -> Refreshed {
    let came = after.keys().filter(|row| !before.contains_key(*row));
    let went = before.keys().filter(|row| !after.contains_key(*row));
    let changed = after.iter().filter(|(row, entry)| {
        let old = before.get(*row);
        old.is_some_and(|old| old.record != entry.record)
    });
    Refreshed::Kept {
        came: came.count(),
        went: went.count(),
        changed: changed.count(),
    }
}
