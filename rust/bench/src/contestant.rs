//! What an implementation has to offer to be timed.

use notation::{encode, Command, Design};

use crate::clock::thread_time;
use crate::measure::TIME_LIMIT;

/// An implementation of the desk.
pub trait Contestant {
    /// Its name in the tables.
    fn name(&self) -> &'static str;

    /// Takes a design that all of them accept, with nothing held and no row
    /// cached.
    fn open(&self, design: &Opening) -> Box<dyn OpenDesk>;
}

/// A design at work in one implementation.
pub trait OpenDesk {
    /// Gets ready for operations; this isn't on the clock.
    fn prepare(&mut self, _operations: &Operations) {}

    /// Carries out one operation. This isn't on the clock: it shows that all
    /// contestants do the same work.
    fn answer(&mut self, operation: &Operation) -> Answer;

    /// Carries out operations as fast as it can, up to and with their answers,
    /// which it leaves behind. Gives how many were done within
    /// [`TIME_LIMIT`]; a contestant that can't be stopped does them all.
    fn run(&mut self, operations: &Operations) -> usize;
}

/// A design in the two forms that implementations take it in, so that turning
/// one into the other isn't on the clock.
#[derive(Clone, Debug)]
pub struct Opening {
    /// The design taken apart.
    pub design: Design,
    /// The design as it stands in a script, up to and with END.
    pub script: Vec<u8>,
}

impl From<&Design> for Opening {
    fn from(design: &Design) -> Opening {
        Opening {
            design: design.clone(),
            script: encode(&design.commands()),
        }
    }
}

/// An operation in two forms.
#[derive(Clone, Debug)]
pub struct Operation {
    /// The operation taken apart.
    pub command: Command,
    /// The operation as it stands in a script.
    pub bytes: Vec<u8>,
}

/// Operations, one by one and as a script.
#[derive(Clone, Debug)]
pub struct Operations {
    /// One by one.
    pub list: Vec<Operation>,
    /// Their bytes one after another.
    pub script: Vec<u8>,
}

impl From<&[Command]> for Operations {
    fn from(commands: &[Command]) -> Operations {
        let operation = |&command: &Command| Operation {
            command,
            bytes: command.bytes(),
        };
        Operations {
            list: commands.iter().map(operation).collect(),
            script: encode(commands),
        }
    }
}

/// For contestants that take operations one by one: carries them out until one
/// gives false or the time limit has passed. Gives how many were done.
pub fn run_one_by_one(
    operations: &Operations,
    mut perform: impl FnMut(&Operation) -> bool,
) -> usize {
    /// So many operations go between two looks at the clock, since a look costs
    /// as much as a small operation.
    const STRIDE: usize = 64;
    let start = thread_time();
    for (number, operation) in operations.list.iter().enumerate() {
        let look = number % STRIDE == STRIDE - 1;
        if look && thread_time() - start > TIME_LIMIT || !perform(operation) {
            return number;
        }
    }
    operations.list.len()
}

/// What an operation gives: enough to see that all have done the same work.
/// Rounds are left out, since a recursive query in SQL doesn't count them.
#[derive(Clone, Debug, PartialEq, Eq)]
pub enum Answer {
    /// Rows added.
    Loaded(usize),
    /// The value is held already.
    Held,
    /// The value is none of the candidates.
    NoCandidate,
    /// Rows that went.
    Dropped(usize),
    /// A probe's ground, and the cached rows that have the value.
    Ground(u8, usize),
    /// The backend has to be asked.
    Sent,
    /// The words of a query's lists.
    Lists(Vec<usize>),
    /// The design is even.
    Even,
    /// The design is uneven, by constraints i and j.
    Uneven(usize, usize),
    /// The sum of a cell over a query's lists.
    Total(u64),
    /// The fewest constraints that are uneven.
    Knot(Vec<usize>),
    /// The desk that is named from now on.
    Desk(usize),
    /// The rows that came, and those that went.
    Rows(usize, usize),
    /// Why a row is cached.
    Reason(String),
    /// The row isn't cached.
    Absent,
    /// The probe has a ground already.
    Open,
    /// The filling, the number and the issue whose load would give it one.
    Opener(usize, u32, u8),
    /// No load would.
    NoOpener,
    /// A cause of refusal.
    Refused(u8),
    /// Given up after [`TIME_LIMIT`].
    OutOfTime,
}

#[cfg(test)]
mod tests {
    use super::*;

    fn ends(count: usize) -> Operations {
        Operations::from(&vec![Command::End; count][..])
    }

    #[test]
    fn an_operation_that_is_not_done_ends_a_run() {
        let mut left = 3;
        let done = run_one_by_one(&ends(9), |_| {
            left -= 1;
            left > 0
        });
        assert_eq!(done, 2);
        assert_eq!(run_one_by_one(&ends(9), |_| true), 9);
    }

    #[test]
    fn the_time_limit_ends_a_run() {
        let start = thread_time();
        let done = run_one_by_one(&ends(9_000), |_| {
            let now = thread_time();
            while thread_time() - now < TIME_LIMIT / 100 {}
            true
        });
        assert!(done < 9_000 && done > 9, "{done}");
        assert!(thread_time() - start < 2 * TIME_LIMIT);
    }
}
