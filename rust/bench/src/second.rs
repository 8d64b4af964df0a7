//! The second implementation as a contestant.

use std::hint::black_box;

use reference::design::Design as ReferenceDesign;
use reference::desk::{Answer as ReferenceAnswer, Desk};
use reference::refusal::Cause;
use reference::script::{read_command, Pair};
use reference::ANSWER_WORDS;

use crate::contestant::{
    run_one_by_one, Answer, Contestant, OpenDesk, Opening, Operation, Operations,
};

/// The second implementation.
pub struct SecondImplementation;

impl Contestant for SecondImplementation {
    fn name(&self) -> &'static str {
        "second implementation"
    }

    fn open(&self, design: &Opening) -> Box<dyn OpenDesk> {
        let read = ReferenceDesign::read(&design.script);
        let (design, _) = read.expect("works have accepted designs");
        Box::new(Desk::new(design, ANSWER_WORDS))
    }
}

impl OpenDesk for Desk {
    fn answer(&mut self, operation: &Operation) -> Answer {
        perform(self, operation).map_or_else(refused, answered)
    }

    fn run(&mut self, operations: &Operations) -> usize {
        run_one_by_one(operations, |operation| {
            let _ = black_box(perform(self, operation));
            true
        })
    }
}

fn perform(desk: &mut Desk, operation: &Operation) -> Result<ReferenceAnswer, Cause> {
    let (command, _) = read_command(&operation.bytes, 0)?;
    desk.perform(&command)
}

fn refused(cause: Cause) -> Answer {
    Answer::Refused(cause as u8)
}

fn answered(answer: ReferenceAnswer) -> Answer {
    match answer {
        ReferenceAnswer::Loaded { rows, .. } => Answer::Loaded(rows),
        ReferenceAnswer::Held => Answer::Held,
        ReferenceAnswer::NoCandidate => Answer::NoCandidate,
        ReferenceAnswer::Dropped { rows } => Answer::Dropped(rows),
        ReferenceAnswer::Ground { ground, rows } => Answer::Ground(ground, rows),
        ReferenceAnswer::Sent => Answer::Sent,
        ReferenceAnswer::Lists(lists) => Answer::Lists(lists.concat()),
        ReferenceAnswer::Even => Answer::Even,
        ReferenceAnswer::Uneven { i, j } => Answer::Uneven(i, j),
        ReferenceAnswer::Total(total) => Answer::Total(total),
        ReferenceAnswer::Rows { came, went } => Answer::Rows(came, went),
        ReferenceAnswer::Reason(sentence) => Answer::Reason(sentence),
        ReferenceAnswer::Absent => Answer::Absent,
        ReferenceAnswer::Open => Answer::Open,
        ReferenceAnswer::Opener(Pair { filling, value }) => {
            Answer::Opener(filling, value.number, value.issue)
        }
        ReferenceAnswer::NoOpener => Answer::NoOpener,
        ReferenceAnswer::Desk(desk) => Answer::Desk(desk),
        ReferenceAnswer::Knot(knot) => Answer::Knot(knot),
    }
}
