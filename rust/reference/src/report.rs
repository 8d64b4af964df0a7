//! The desk program: a script's bytes in, its report out.

use std::fmt;

use crate::design::Design;
use crate::desk::{Answer, Desk};
use crate::refusal::Refusal;
use crate::script::{read_command, Pair};

/// The answer words that the program lends.
pub const ANSWER_WORDS: usize = 4_096;

/// The report that the desk program prints for a script.
pub fn report(script: &[u8]) -> String {
    report_lending(script, ANSWER_WORDS)
}

/// The report of a program that lends another number of answer words.
pub fn report_lending(script: &[u8], answer_words: usize) -> String {
    report_of(script, |design| Desk::new(design, answer_words))
}

/// The report of a program that lends another number of bytes for text.
pub fn report_lending_text(script: &[u8], text_bytes: usize) -> String {
    report_of(script, |design| {
        Desk::new(design, ANSWER_WORDS).lending_text(text_bytes)
    })
}

fn report_of(script: &[u8], open: impl Fn(Design) -> Desk) -> String {
    match Design::read(script) {
        Err(refusal) => format!("{refusal}\n"),
        Ok((design, place)) => {
            let head = head(&design);
            head + &operations(open(design), script, place)
        }
    }
}

fn head(design: &Design) -> String {
    format!(
        "design {} {} {} {}\n",
        design.tables.len(),
        design.constraints.len(),
        design.fillings.len(),
        design.rows.len()
    )
}

/// Carries out the commands from `place` on. One that can't be read is the last,
/// since nothing tells where the next would begin.
fn operations(mut desk: Desk, script: &[u8], mut place: usize) -> String {
    let mut text = String::new();
    let mut number = 0;
    while place < script.len() {
        let read = read_command(script, place);
        let answer = read.and_then(|(command, _)| desk.perform(&command));
        text += &match answer {
            Ok(answer) => format!("{number} {answer}\n"),
            Err(cause) => format!("{number} {}\n", Refusal { cause, place }),
        };
        number += 1;
        place = read.map_or(script.len(), |(_, next)| next);
    }
    text
}

impl fmt::Display for Answer {
    fn fmt(&self, out: &mut fmt::Formatter<'_>) -> fmt::Result {
        match self {
            Answer::Loaded { rows, rounds } => write!(out, "loaded {rows} {rounds}"),
            Answer::Held => write!(out, "held"),
            Answer::NoCandidate => write!(out, "no candidate"),
            Answer::Dropped { rows } => write!(out, "dropped {rows}"),
            Answer::Ground { ground, rows } => write!(out, "ground {ground} {rows}"),
            Answer::Sent => write!(out, "sent"),
            Answer::Lists(lists) => write_lists(out, lists),
            Answer::Even => write!(out, "even"),
            Answer::Uneven { i, j } => write!(out, "uneven {i} {j}"),
            Answer::Total(total) => write!(out, "total {total}"),
            Answer::Rows { came, went } => write!(out, "rows {came} {went}"),
            Answer::Reason(sentence) => write!(out, "{sentence}"),
            Answer::Absent => write!(out, "absent"),
            Answer::Open => write!(out, "open"),
            Answer::Opener(Pair { filling, value }) => {
                write!(out, "{filling} {} {}", value.number, value.issue)
            }
            Answer::NoOpener => write!(out, "none"),
            Answer::Desk(desk) => write!(out, "desk {desk}"),
            Answer::Knot(knot) => write!(out, "knot {}", numbers(knot)),
        }
    }
}

fn write_lists(out: &mut fmt::Formatter<'_>, lists: &[Vec<usize>]) -> fmt::Result {
    write!(out, "answer {}", lists.len())?;
    for list in lists {
        write!(out, "\n{}", numbers(list))?;
    }
    Ok(())
}

/// Numbers with blanks between them.
fn numbers(numbers: &[usize]) -> String {
    let numbers: Vec<String> = numbers.iter().map(usize::to_string).collect();
    numbers.join(" ")
}
