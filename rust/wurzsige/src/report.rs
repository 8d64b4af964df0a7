//! The report of the program `desk`, line by line.

use alloc::vec::Vec;
use core::fmt;

use crate::answer::Answer;
use crate::desk::Desk;
use crate::parts::Counts;
use crate::refusal::Refusal;

/// A line of the report, with the lists that stand on lines after it. Its text has no
/// line end behind it.
///
/// ```
/// use wurzsige::{lines, Answer, Line};
///
/// let mut lines = lines(&[0x01, 1, 0, 0x05, 0x14]);
/// assert!(matches!(lines.next(), Some(Line::Design(counts)) if counts.tables == 1));
/// assert_eq!(lines.next(), Some(Line::Operation { number: 0, answer: Answer::Even }));
/// ```
#[derive(Clone, Debug, PartialEq, Eq)]
#[non_exhaustive]
pub enum Line {
    /// The design was accepted.
    Design(Counts),
    /// The design was refused, and there is no line after it.
    Refused(Refusal),
    /// A command behind END.
    Operation {
        /// Its number, from 0.
        number: usize,
        /// What it was answered.
        answer: Answer,
    },
}

impl fmt::Display for Line {
    fn fmt(&self, out: &mut fmt::Formatter<'_>) -> fmt::Result {
        match self {
            Line::Design(counts) => counts.fmt(out),
            Line::Refused(refusal) => Answer::Refused(*refusal).fmt(out),
            Line::Operation { number, answer } => write!(out, "{number} {answer}"),
        }
    }
}

/// The lines of a script's report, each made when it is asked for: see [`lines`].
///
/// ```
/// let mut lines: wurzsige::Lines = wurzsige::lines(&[]);
/// assert_eq!(lines.next().map(|line| line.to_string()).as_deref(), Some("refused 1 0"));
/// assert!(lines.next().is_none());
/// ```
#[derive(Clone, Debug)]
pub struct Lines<'a> {
    script: &'a [u8],
    state: State,
}

#[derive(Clone, Debug)]
enum State {
    Unopened,
    Open {
        desk: Desk,
        at: usize,
        number: usize,
    },
    Ended,
}

/// Carries a script out command by command, and gives the report's lines one after
/// another. Some scripts have reports of hundreds of megabytes.
///
/// ```
/// // A table of a column; a probe of it for 7; a probe of a table that isn't there.
/// let script = [0x01, 1, 0, 0x05, 0x12, 0, 0, 7, 0, 0, 0, 0x12, 1, 0, 7, 0, 0, 0];
/// let lines: Vec<String> = wurzsige::lines(&script).map(|line| line.to_string()).collect();
/// assert_eq!(lines, ["design 1 0 0 0", "0 sent", "1 refused 5 11"]);
/// ```
pub fn lines(script: &[u8]) -> Lines<'_> {
    Lines {
        script,
        state: State::Unopened,
    }
}

impl Iterator for Lines<'_> {
    type Item = Line;

    fn next(&mut self) -> Option<Line> {
        match &mut self.state {
            State::Unopened => Some(self.open()),
            State::Open { at, .. } if *at >= self.script.len() => None,
            State::Open { desk, at, number } => {
                let step = desk.step(self.script, *at);
                let line = Line::Operation {
                    number: *number,
                    answer: step.answer,
                };
                *at = step.next;
                *number += 1;
                if !step.more {
                    self.state = State::Ended;
                }
                Some(line)
            }
            State::Ended => None,
        }
    }
}

impl Lines<'_> {
    fn open(&mut self) -> Line {
        match Desk::open(self.script) {
            Ok(desk) => {
                let counts = desk.counts();
                self.state = State::Open {
                    at: desk.operations_at(),
                    number: 0,
                    desk,
                };
                Line::Design(counts)
            }
            Err(refusal) => {
                self.state = State::Ended;
                Line::Refused(refusal)
            }
        }
    }
}

/// A script that was carried out. Its text is the report, byte for byte as the program
/// `desk` prints it.
///
/// ```
/// assert_eq!(wurzsige::run(&[0x05]).lines.len(), 1);
/// ```
#[derive(Clone, Debug, PartialEq, Eq)]
#[non_exhaustive]
pub struct Run {
    /// The lines of its report.
    pub lines: Vec<Line>,
}

/// Carries a script out, design and operations.
///
/// ```
/// use wurzsige::{run, Answer, Line};
///
/// // A table of a column; whether the design is even; desk 2 is named.
/// let run = run(&[0x01, 1, 0, 0x05, 0x14, 0x17, 2]);
/// let even = Line::Operation { number: 0, answer: Answer::Even };
/// assert_eq!(run.lines[1], even);
/// assert_eq!(run.to_string(), "design 1 0 0 0\n0 even\n1 desk 2\n");
/// ```
pub fn run(script: &[u8]) -> Run {
    Run {
        lines: lines(script).collect(),
    }
}

/// The report, byte for byte as the program `desk` prints it.
impl fmt::Display for Run {
    fn fmt(&self, out: &mut fmt::Formatter<'_>) -> fmt::Result {
        self.lines
            .iter()
            .try_for_each(|line| writeln!(out, "{line}"))
    }
}
