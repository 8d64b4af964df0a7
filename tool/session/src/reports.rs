//! What a session tells of itself without being changed: what is held and what it costs, why a row is here, what would open a probe.

use wurzsige::{Desk, Origin, Range, Reasoned, Refusal};

use crate::answers::{Held, Needs, Reason, Step, Wanted};
use crate::brought::{brought, Brought};
use crate::session::Session;
use crate::trouble::Trouble;

/// How many desks there are.
const DESKS: u8 = 4;

impl Session<'_> {
    /// What the desks hold: values in the order in which they were loaded, then each desk's ranges.
    pub fn held(&self) -> Vec<Held> {
        let desk = &self.slice.desk;
        let values = desk.held().into_iter().map(|held| {
            let load = usize::from(held.filling);
            let wanted = self.value(load, held.value);
            Held {
                desk: held.desk,
                load,
                wanted,
            }
        });
        let ranges = (0..DESKS).flat_map(|number| {
            let ranges = desk.ranges(number).into_iter();
            ranges.map(move |range| Held {
                desk: number,
                load: range.filling.into(),
                wanted: wanted(range),
            })
        });
        values.chain(ranges).collect()
    }

    /// How many rows something held needs: the desk is asked with all else dropped, and with it alone dropped.
    pub fn needs(&mut self, held: &Held) -> Result<Needs, Trouble> {
        self.usable()?;
        let all = self.held();
        let mut others = Desk::clone(&self.slice.desk);
        let alone = self.dropped(&mut others, held)?;
        let mut only = Desk::clone(&self.slice.desk);
        for other in all.iter().filter(|other| *other != held) {
            self.dropped(&mut only, other)?;
        }
        let rows = only.cached().count();
        Ok(Needs { rows, alone })
    }

    /// Drops something held of a copy of the desk, and gives the rows that went.
    fn dropped(&mut self, copy: &mut Desk, held: &Held) -> Result<usize, Trouble> {
        copy.name_desk(held.desk)?;
        let filling = held.load as u8;
        let dropped = match &held.wanted {
            Wanted::Value(value) => {
                let column = self.design.loads[held.load].column;
                let value = self.cell(column, value)?;
                copy.drop_value(filling, value)
            }
            &Wanted::Range { low, high } => copy.release_range(Range { filling, low, high }),
        };
        Ok(dropped?.rows)
    }

    /// Why a row is here; none if it isn't cached.
    pub fn reason(&self, row: u16) -> Result<Option<Reason>, Trouble> {
        self.usable()?;
        let Reasoned::Reason(reason) = self.slice.desk.reason(row)? else {
            return Ok(None);
        };
        let steps = reason.steps().iter().map(|step| Step {
            link: step.constraint.into(),
            from: step.row,
        });
        let (load, wanted) = match reason.origin() {
            Origin::Value { filling, value } => {
                let load = usize::from(filling);
                (load, self.value(load, value))
            }
            Origin::Range(range) => (range.filling.into(), wanted(range)),
        };
        Ok(Some(Reason {
            row,
            steps: steps.collect(),
            load,
            wanted,
        }))
    }

    /// By which links some cached rows came, in the order of their rounds.
    pub fn brought(&self, rows: impl Iterator<Item = u16>) -> Result<Vec<Brought>, Refusal> {
        brought(&self.slice.desk, rows)
    }

    /// A value of a load, which the session has met.
    pub(crate) fn value(&self, load: usize, cell: wurzsige::Value) -> Wanted {
        let column = self.design.loads[load].column;
        let value = self.coder.value(column, cell);
        Wanted::Value(value.expect("what is held was given by a name"))
    }
}

fn wanted(range: Range) -> Wanted {
    let Range { low, high, .. } = range;
    Wanted::Range { low, high }
}
