//! Lent state: the design, the rows and what is held lie in the caller's memory, laid out
//! as `include/wurzsige.h` says, and each call looks at all of it first (documents 01 and
//! 02, causes 7 and 12).
//!
//! A call takes the memory apart into a desk of its own, carries out what is asked on that,
//! and lays it out again. So a refused call has written nothing.
//!
//! - [`layout`] says where things stand in the words.
//! - `flaw` names all that makes lent memory unlawful or too short.
//! - `design`, `held` and `rows` take the parts out of their words and lay them out.
//! - `slices` are fetches and verdicts as words.
//! - `written` is a design as the bytes of a script.
//! - `told` is what a call answers.

mod design;
mod flaw;
mod held;
pub mod layout;
mod rows;
mod slices;
mod told;
mod words;
mod written;

pub use flaw::Flaw;
pub use rows::FREE;
pub use slices::{fetch_words, missing, verdicts, FETCH_WORDS, VERDICT_WORDS};
pub use told::{Told, Word, NUMBERS};

use crate::design::{Design, LONGEST_SCRIPT, MOST_ROWS};
use crate::desk::{Answer, Desk};
use crate::held::Holding;
use crate::refusal::{Cause, Refusal};
use crate::script::{read_command, Command, CELLS};
use written::written;

/// The words of a design.
pub const DESIGN_WORDS: usize = 115;

/// The words of what is held.
pub const HELD_WORDS: usize = 358;

/// The numbers of rows: lent row tables, and marks.
pub const ROWS: usize = MOST_ROWS;

/// The lent cells of all rows, and issues.
pub const ALL_CELLS: usize = ROWS * CELLS;

/// The buffers that a caller lends. They may be longer than the sizes above; what stands
/// behind these is never looked at.
#[derive(Clone, Debug, Default, PartialEq, Eq)]
pub struct Lent {
    /// The tables, constraints and fillings.
    pub design: Vec<u32>,
    /// The named desk, the held values and the ranges.
    pub held: Vec<u32>,
    /// The numbers of cells, eight to a row.
    pub cells: Vec<u32>,
    /// The issues of cells.
    pub issues: Vec<u8>,
    /// The table of each row, or [`FREE`].
    pub tables: Vec<u8>,
    /// 1 for each cached row.
    pub marks: Vec<u8>,
}

/// How much is to be lent.
#[derive(Clone, Copy, Debug, PartialEq, Eq)]
pub struct Sizes {
    /// The bytes that the written design has.
    pub bytes: u64,
    /// The words that the step's lists have; 0 if it answers none.
    pub words: u64,
    /// The bytes of the step's reason; 0 if it gives none.
    pub text: u64,
}

impl Lent {
    /// Buffers that just suffice, with nothing but zeros.
    pub fn zeros() -> Lent {
        Lent {
            design: vec![0; DESIGN_WORDS],
            held: vec![0; HELD_WORDS],
            cells: vec![0; ALL_CELLS],
            issues: vec![0; ALL_CELLS],
            tables: vec![0; ROWS],
            marks: vec![0; ROWS],
        }
    }

    /// The desk that the memory stands for, as if all answer words and text were lent; or
    /// the first flaw, one of cause 7 if there is any.
    pub fn desk(&self) -> Result<Desk, Flaw> {
        self.check_lengths()?;
        let mut design = design::design_from(&self.design)?;
        rows::add_rows(&mut design, self)?;
        let held = held::holding_from(&design, &self.held)?;
        let desk = Desk::new(design, usize::MAX).lending_text(usize::MAX);
        let desk = desk.holding(held);
        rows::check_marks(&desk, self)?;
        Ok(desk)
    }

    fn check_lengths(&self) -> Result<(), Flaw> {
        Flaw::ShortCells.unless(self.cells.len() >= ALL_CELLS)?;
        Flaw::ShortIssues.unless(self.issues.len() >= ALL_CELLS)?;
        Flaw::ShortTables.unless(self.tables.len() >= ROWS)?;
        Flaw::ShortMarks.unless(self.marks.len() >= ROWS)?;
        Flaw::ShortDesign.unless(self.design.len() >= DESIGN_WORDS)?;
        Flaw::ShortHeld.unless(self.held.len() >= HELD_WORDS)
    }

    /// Lays out a desk, in buffers that suffice.
    pub fn keep(&mut self, desk: &Desk) {
        design::put_design(desk.design(), &mut self.design);
        held::put_holding(desk.held(), &mut self.held);
        rows::put_rows(desk, self);
    }
}

/// Opens the design at the head of a script. What the buffers held before is free.
pub fn open(script: &[u8], lent: &mut Lent) -> Told {
    if let Err(flaw) = lent.check_lengths() {
        return Told::stopped(flaw.cause(), 0, 0);
    }
    match Design::read(script) {
        // A refused design leaves nothing to go on with, whatever the cause.
        Err(Refusal { cause, place }) => Told::stopped(cause, place, 0),
        Ok((design, next)) => {
            let desk = Desk::new(design, 0).holding(Holding::default());
            lent.keep(&desk);
            Told::opened(desk.design(), next)
        }
    }
}

/// Takes the step at a place of a script.
pub fn step(script: &[u8], at: usize, lent: &mut Lent, words: &mut [u32], text: &mut [u8]) -> Told {
    let mut desk = match lent.desk() {
        Ok(desk) => desk.lending(words.len(), text.len()),
        Err(flaw) => return Told::stopped(flaw.cause(), 0, at),
    };
    let told = take(&mut desk, script, at, words, text);
    if told.cause().is_none() {
        lent.keep(&desk);
    }
    told
}

/// Takes all steps from a place on, until the script ends or a step stops, and tells no
/// answers. An unlawful state stops the first.
pub fn run(script: &[u8], at: usize, lent: &mut Lent, words: &mut [u32], text: &mut [u8]) {
    let Ok(desk) = lent.desk() else {
        return;
    };
    let mut desk = desk.lending(words.len(), text.len());
    let mut place = at;
    while place < script.len() {
        let told = take(&mut desk, script, place, words, text);
        if told.more == 0 {
            break;
        }
        place = told.next;
    }
    lent.keep(&desk);
}

/// Takes a step on a desk that is lawful.
fn take(desk: &mut Desk, script: &[u8], at: usize, words: &mut [u32], text: &mut [u8]) -> Told {
    if script.len() > LONGEST_SCRIPT {
        return Told::stopped(Cause::TooMany, 0, at);
    }
    let (command, next) = match read_command(script, at) {
        Ok(read) => read,
        Err(cause) => return Told::stopped(cause, at.min(script.len()), at),
    };
    match desk.perform(&command) {
        Err(cause) => Told::refused(cause, at, next),
        Ok(answer) => {
            hand_over(&answer, words, text);
            Told::answered(&answer, next)
        }
    }
}

/// Writes an answer's lists and sentence into the words and the text, which suffice.
fn hand_over(answer: &Answer, words: &mut [u32], text: &mut [u8]) {
    match answer {
        Answer::Lists(lists) => {
            for (word, row) in words.iter_mut().zip(lists.iter().flatten()) {
                *word = *row as u32;
            }
        }
        Answer::Reason(sentence) => text[..sentence.len()].copy_from_slice(sentence.as_bytes()),
        _ => {}
    }
}

/// Writes the design with its rows from the first byte on, and gives how many bytes it has.
pub fn write(lent: &Lent, out: &mut [u8]) -> Result<usize, Cause> {
    let desk = lent.desk().map_err(Flaw::cause)?;
    let bytes = written(desk.design());
    Cause::TooShort.unless(bytes.len() <= out.len())?;
    out[..bytes.len()].copy_from_slice(&bytes);
    Ok(bytes.len())
}

/// Tells how much is to be lent for the written design and for the step at a place.
pub fn sizes(script: &[u8], at: usize, lent: &Lent) -> Result<Sizes, Cause> {
    let desk = lent.desk().map_err(Flaw::cause)?;
    let (words, text) = needed(&desk, script, at);
    Ok(Sizes {
        bytes: written(desk.design()).len() as u64,
        words,
        text,
    })
}

/// The words and the bytes of text that a step would write if they were lent.
fn needed(desk: &Desk, script: &[u8], at: usize) -> (u64, u64) {
    if script.len() > LONGEST_SCRIPT {
        return (0, 0);
    }
    match read_command(script, at) {
        Ok((Command::Query(query), _)) => (desk.words_of(&query).unwrap_or(0), 0),
        Ok((Command::Reason(row), _)) => match desk.reason(row) {
            Ok(Answer::Reason(sentence)) => (0, sentence.len() as u64),
            _ => (0, 0),
        },
        _ => (0, 0),
    }
}
