//! What a call tells: a word, the numbers behind it, and where reading goes on.

use crate::design::Design;
use crate::desk::Answer;
use crate::refusal::Cause;
use crate::script::Pair;

/// The most numbers that an answer can have.
pub const NUMBERS: usize = 16;

/// The word of an answer.
#[derive(Clone, Copy, Debug, PartialEq, Eq)]
pub enum Word {
    /// Rows, later rounds.
    Loaded = 0,
    /// No number.
    Held = 1,
    /// No number.
    NoCandidate = 2,
    /// Rows.
    Dropped = 3,
    /// Ground, cached rows with the value.
    Ground = 4,
    /// No number.
    Sent = 5,
    /// Lists.
    Lists = 6,
    /// Cause.
    Refused = 7,
    /// No number.
    Even = 8,
    /// Two constraints.
    Uneven = 9,
    /// Total.
    Total = 10,
    /// Constraints, rising.
    Knot = 11,
    /// Desk.
    Desk = 12,
    /// No number.
    Open = 13,
    /// Filling, number, issue.
    Opener = 14,
    /// No number.
    NoOpener = 15,
    /// No number.
    Absent = 16,
    /// Bytes of the sentence.
    Reason = 17,
    /// Rows that came, rows that went.
    Changed = 18,
    /// Tables, constraints, fillings, rows.
    Design = 19,
}

/// What a call tells.
#[derive(Clone, Copy, Debug, PartialEq, Eq)]
pub struct Told {
    /// A number of [`Word`].
    pub word: u8,
    /// The numbers behind the word, 0 behind the last of them.
    pub numbers: [u64; NUMBERS],
    /// How many numbers there are.
    pub count: u8,
    /// Of a refusal: where the faulty command begins; 0 with any other answer.
    pub place: usize,
    /// The place after the command; after a refusal that stops, the place that was given:
    /// 0 for an opening.
    pub next: usize,
    /// 1 if reading goes on at `next`, 0 if it stops: after a refused opening, after causes
    /// 1, 2, 7 and 12, and after 4 for the script's length.
    pub more: u8,
}

impl Told {
    /// A refusal that stops at the place that was given.
    pub fn stopped(cause: Cause, place: usize, at: usize) -> Told {
        Told {
            place,
            more: 0,
            ..Told::new(Word::Refused, &[cause as u64], at)
        }
    }

    /// A refused command, behind which reading goes on.
    pub fn refused(cause: Cause, place: usize, next: usize) -> Told {
        Told {
            place,
            ..Told::new(Word::Refused, &[cause as u64], next)
        }
    }

    /// An opened design.
    pub fn opened(design: &Design, next: usize) -> Told {
        let numbers = [
            design.tables.len(),
            design.constraints.len(),
            design.fillings.len(),
            design.rows.len(),
        ];
        Told::new(Word::Design, &numbers.map(|number| number as u64), next)
    }

    /// An answered command.
    pub fn answered(answer: &Answer, next: usize) -> Told {
        let (word, numbers) = shown(answer);
        Told::new(word, &numbers, next)
    }

    fn new(word: Word, given: &[u64], next: usize) -> Told {
        let mut numbers = [0; NUMBERS];
        numbers[..given.len()].copy_from_slice(given);
        Told {
            word: word as u8,
            numbers,
            count: given.len() as u8,
            place: 0,
            next,
            more: 1,
        }
    }

    /// The cause, if this is a refusal.
    pub fn cause(&self) -> Option<u8> {
        (self.word == Word::Refused as u8).then_some(self.numbers[0] as u8)
    }
}

/// An answer's word, and the numbers behind it.
fn shown(answer: &Answer) -> (Word, Vec<u64>) {
    let numbers = |given: &[usize]| given.iter().map(|&number| number as u64).collect();
    match answer {
        Answer::Loaded { rows, rounds } => (Word::Loaded, numbers(&[*rows, *rounds])),
        Answer::Held => (Word::Held, vec![]),
        Answer::NoCandidate => (Word::NoCandidate, vec![]),
        Answer::Dropped { rows } => (Word::Dropped, numbers(&[*rows])),
        Answer::Ground { ground, rows } => (Word::Ground, numbers(&[(*ground).into(), *rows])),
        Answer::Sent => (Word::Sent, vec![]),
        Answer::Lists(lists) => (Word::Lists, numbers(&[lists.len()])),
        Answer::Even => (Word::Even, vec![]),
        Answer::Uneven { i, j } => (Word::Uneven, numbers(&[*i, *j])),
        Answer::Total(total) => (Word::Total, vec![*total]),
        Answer::Knot(knot) => (Word::Knot, numbers(knot)),
        Answer::Desk(desk) => (Word::Desk, numbers(&[*desk])),
        Answer::Rows { came, went } => (Word::Changed, numbers(&[*came, *went])),
        Answer::Reason(sentence) => (Word::Reason, numbers(&[sentence.len()])),
        Answer::Absent => (Word::Absent, vec![]),
        Answer::Open => (Word::Open, vec![]),
        Answer::Opener(Pair { filling, value }) => {
            let (filling, issue) = (*filling as u64, value.issue.into());
            (Word::Opener, vec![filling, value.number.into(), issue])
        }
        Answer::NoOpener => (Word::NoOpener, vec![]),
    }
}
