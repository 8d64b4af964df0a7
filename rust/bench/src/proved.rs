//! The proved desk as a contestant, linked from its static library, which
//! `bench/run` makes of the crate `wurzsige`.

#![allow(unsafe_code)]

use reference::ANSWER_WORDS;
use wurzsige_sys::{word, Memory, MOST_TEXT};

use crate::contestant::{Answer, Contestant, OpenDesk, Opening, Operation, Operations};

/// The proved desk.
pub struct ProvedDesk;

/// What the desk is lent. Only the library writes the memory, so that it stays a desk,
/// as the trusted functions ask.
struct Lent {
    memory: Box<Memory>,
    words: Vec<u32>,
    text: Vec<u8>,
}

impl Contestant for ProvedDesk {
    fn name(&self) -> &'static str {
        "proved desk"
    }

    fn open(&self, design: &Opening) -> Box<dyn OpenDesk> {
        // Zeros cost nothing until they are touched.
        let mut memory = Memory::boxed();
        let told = memory.open(&design.script);
        let cause = told.numbers[0];
        assert_eq!(
            told.word,
            word::DESIGN,
            "works have accepted designs: {cause}"
        );
        Box::new(Lent {
            memory,
            words: vec![0; ANSWER_WORDS],
            text: vec![0; MOST_TEXT],
        })
    }
}

impl OpenDesk for Lent {
    fn answer(&mut self, operation: &Operation) -> Answer {
        let Lent {
            memory,
            words,
            text,
        } = self;
        // SAFETY: a design was opened there, and only the library has written it since.
        let told = unsafe { memory.step_trusted(&operation.bytes, 0, words, text) };
        let [number, second, third, ..] = told.numbers;
        match told.word {
            word::LOADED => Answer::Loaded(number as usize),
            word::HELD => Answer::Held,
            word::NO_CANDIDATE => Answer::NoCandidate,
            word::DROPPED => Answer::Dropped(number as usize),
            word::GROUND => Answer::Ground(number as u8, second as usize),
            word::SENT => Answer::Sent,
            word::LISTS => {
                // A QUERY's number of joins is its eighth byte.
                let positions = usize::from(operation.bytes[7]) + 1;
                let words = &self.words[..number as usize * positions];
                Answer::Lists(words.iter().map(|&word| word as usize).collect())
            }
            word::REFUSED => Answer::Refused(number as u8),
            word::EVEN => Answer::Even,
            word::UNEVEN => Answer::Uneven(number as usize, second as usize),
            word::TOTAL => Answer::Total(number),
            word::KNOT => {
                let constraints = &told.numbers[..usize::from(told.count)];
                Answer::Knot(constraints.iter().map(|&number| number as usize).collect())
            }
            word::DESK => Answer::Desk(number as usize),
            word::OPEN => Answer::Open,
            word::OPENER => Answer::Opener(number as usize, second as u32, third as u8),
            word::NO_OPENER => Answer::NoOpener,
            word::ABSENT => Answer::Absent,
            word::REASON => {
                let sentence = &self.text[..number as usize];
                Answer::Reason(String::from_utf8_lossy(sentence).into_owned())
            }
            word::CHANGED => Answer::Rows(number as usize, second as usize),
            word => unreachable!("no answer has the word {word}"),
        }
    }

    fn run(&mut self, operations: &Operations) -> usize {
        let Lent {
            memory,
            words,
            text,
        } = self;
        // SAFETY: as in `answer`.
        unsafe { memory.run_trusted(&operations.script, 0, words, text) };
        operations.list.len()
    }
}

#[cfg(test)]
mod tests {
    use std::fs;
    use std::mem::discriminant;
    use std::path::Path;

    use notation::{assemble, encode, split, Command, Design, Piece};

    use super::*;
    use crate::second::SecondImplementation;

    /// The commands of an example.
    fn commands(path: &Path) -> Vec<Command> {
        let text = fs::read_to_string(path).expect("an example");
        let script = assemble(&text).expect("a script");
        let command = |piece| match piece {
            Piece::Command(command) => command,
            Piece::Rest(_) => panic!("{} has a command cut short", path.display()),
        };
        split(&script).into_iter().map(command).collect()
    }

    #[test]
    fn the_examples_are_answered_as_by_the_second_implementation() {
        let examples = Path::new(env!("CARGO_MANIFEST_DIR")).join("../../examples");
        let mut kinds = Vec::new();
        let mut held = 0;
        for entry in fs::read_dir(examples).expect("the examples") {
            let path = entry.expect("an entry").path();
            if path.extension().is_none_or(|extension| extension != "desk") {
                continue;
            }
            let commands = commands(&path);
            let end = commands.iter().position(|command| *command == Command::End);
            let (design, operations) = commands.split_at(end.expect("an END") + 1);
            let opening = Opening {
                design: Design::default(),
                script: encode(design),
            };
            let mut proved = ProvedDesk.open(&opening);
            let mut second = SecondImplementation.open(&opening);
            for operation in &Operations::from(operations).list {
                let answer = proved.answer(operation);
                let command = operation.command;
                assert_eq!(answer, second.answer(operation), "{command:?} of {path:?}");
                if !kinds.contains(&discriminant(&answer)) {
                    kinds.push(discriminant(&answer));
                }
            }
            held += 1;
        }
        assert!(held > 9, "only {held} examples");
        assert!(kinds.contains(&discriminant(&Answer::Reason(String::new()))));
        assert!(kinds.contains(&discriminant(&Answer::Absent)));
    }
}
