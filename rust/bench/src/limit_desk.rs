//! The desk written for speed alone as a contestant.

use limit::design::number;
use limit::{Answer as LimitAnswer, Desk};

use crate::contestant::{Answer, Contestant, OpenDesk, Opening, Operation, Operations};

/// The desk written for speed alone.
pub struct Limit;

impl Contestant for Limit {
    fn name(&self) -> &'static str {
        "limit"
    }

    fn open(&self, design: &Opening) -> Box<dyn OpenDesk> {
        match Desk::open(&design.script) {
            Ok((desk, _)) => desk,
            Err(refusal) => panic!("works have accepted designs: {refusal:?}"),
        }
    }
}

impl OpenDesk for Desk {
    fn answer(&mut self, operation: &Operation) -> Answer {
        let (answer, _) = self.step(&operation.bytes);
        match answer {
            LimitAnswer::Loaded { rows, .. } => Answer::Loaded(rows),
            LimitAnswer::Held => Answer::Held,
            LimitAnswer::NoCandidate => Answer::NoCandidate,
            LimitAnswer::Dropped(rows) => Answer::Dropped(rows),
            LimitAnswer::Ground { ground, rows } => Answer::Ground(ground, rows),
            LimitAnswer::Sent => Answer::Sent,
            LimitAnswer::Lists(lists) => {
                // A QUERY's number of joins is its eighth byte.
                let positions = usize::from(operation.bytes[7]) + 1;
                let words = &self.words()[..lists * positions];
                Answer::Lists(words.iter().map(|&word| word as usize).collect())
            }
            LimitAnswer::Even => Answer::Even,
            LimitAnswer::Uneven { i, j } => Answer::Uneven(usize::from(i), usize::from(j)),
            LimitAnswer::Total(total) => Answer::Total(total),
            LimitAnswer::Rows { came, went } => Answer::Rows(came, went),
            LimitAnswer::Reason(_) => {
                Answer::Reason(String::from_utf8_lossy(self.text()).into_owned())
            }
            LimitAnswer::Absent => Answer::Absent,
            LimitAnswer::Open => Answer::Open,
            LimitAnswer::Opener { filling, value } => {
                Answer::Opener(filling.into(), number(value), value as u8)
            }
            LimitAnswer::NoOpener => Answer::NoOpener,
            LimitAnswer::Desk(desk) => Answer::Desk(desk.into()),
            LimitAnswer::Knot(knot) => {
                Answer::Knot((0..16).filter(|i| knot >> i & 1 == 1).collect())
            }
            LimitAnswer::Refused(cause) => Answer::Refused(cause),
        }
    }

    fn run(&mut self, operations: &Operations) -> usize {
        Desk::run(self, &operations.script, 0);
        operations.list.len()
    }
}
