//! The value that would open a query (document 02, Req 09): all that can make a
//! difference are referred, each on a copy of the desk.

use crate::desk::{Answer, Desk};
use crate::refusal::Cause;
use crate::script::{Pair, Probe, Value};

impl Desk {
    pub(crate) fn opener(&self, probe: Probe) -> Result<Answer, Cause> {
        if self.probe(probe)? != Answer::Sent {
            return Ok(Answer::Open);
        }
        let pairs = (0..self.design.fillings.len()).flat_map(|f| self.pairs_to_try(f, probe));
        let mut openers = pairs.filter(|&pair| self.is_opened_by(pair, probe));
        Ok(openers.next().map_or(Answer::NoOpener, Answer::Opener))
    }

    /// The candidates of a filling that a row has in its column, and the probed value,
    /// in rising order. Any other brings no row and isn't the probed value, so it opens
    /// nothing: the lowest candidate is tried for all of them.
    fn pairs_to_try(&self, filling: usize, probe: Probe) -> Vec<Pair> {
        let column = self.design.fillings[filling].column;
        let lowest = Value {
            number: self.design.fillings[filling].low,
            issue: 0,
        };
        let rows = 0..self.design.rows.len();
        let cells = rows.filter_map(|row| self.design.cell(row, column));
        let mut values: Vec<Value> = cells.collect();
        values.extend([probe.value, lowest]);
        values.sort_unstable();
        values.dedup();
        let pairs = values.into_iter().map(|value| Pair { filling, value });
        pairs
            .filter(|&pair| self.design.is_candidate(pair))
            .collect()
    }

    /// Whether the probe has a ground once the pair is referred. Whether there is room
    /// for it doesn't matter.
    fn is_opened_by(&self, pair: Pair, probe: Probe) -> bool {
        let mut desk = self.clone();
        desk.hold(pair);
        desk.search(probe.column, probe.value) != Answer::Sent
    }
}
