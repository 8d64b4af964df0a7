//! Why a row is cached, as steps and in words.

use alloc::string::String;
use alloc::vec::Vec;
use core::fmt;
use core::str::SplitAsciiWhitespace;

use crate::operand::{Range, Value};

/// Why a row is cached: the shortest chain of demands from something held to the row.
///
/// The words are the desk's own, and the steps are read off them, so that the two can't
/// say different things.
///
/// ```
/// use wurzsige::{Builder, Origin, Named::Plain, ReasonStep, Reasoned, Row};
///
/// let mut design = Builder::new();
/// let [number, ward] = design.table("subjects", [Plain("number"), Plain("ward")]);
/// let [_, subject] = design.table("recordings", [Plain("number"), Plain("subject")]);
/// design.constraint(number, subject);
/// design.filling(ward, 1..=99);
/// design.row(Row::new(0, [7, 3]));
/// design.row(Row::new(1, [20, 7]));
/// let mut desk = design.open()?;
/// desk.refer(0, 3)?;
///
/// let Reasoned::Reason(reason) = desk.reason(1)? else {
///     panic!("it isn't cached");
/// };
/// assert_eq!(reason.words(), "row 1 by constraint 0 from row 0 by value 3 of filling 0");
/// assert_eq!(reason.row(), 1);
/// assert_eq!(reason.steps(), [ReasonStep { constraint: 0, row: 0 }]);
/// assert_eq!(reason.origin(), Origin::Value { filling: 0, value: 3.into() });
/// # Ok::<(), Box<dyn std::error::Error>>(())
/// ```
#[derive(Clone, Debug, PartialEq, Eq, Hash)]
pub struct Reason {
    words: String,
    row: u16,
    steps: Vec<ReasonStep>,
    origin: Origin,
}

/// A demand: the constraint by which a row has to be cached, and the row that it demands it
/// of.
///
/// ```
/// use wurzsige::ReasonStep;
///
/// let step = ReasonStep { constraint: 1, row: 3 };
/// assert_eq!(step.to_string(), "by constraint 1 from row 3");
/// ```
#[derive(Clone, Copy, Debug, PartialEq, Eq, Hash)]
pub struct ReasonStep {
    /// The constraint's number.
    pub constraint: u8,
    /// The number of the row that the constraint demands it of.
    pub row: u16,
}

/// Something held, at which a chain of demands begins.
///
/// ```
/// use wurzsige::{Origin, Range};
///
/// let value = Origin::Value { filling: 1, value: (5003, 2).into() };
/// assert_eq!(value.to_string(), "by value 5003 issue 2 of filling 1");
/// let range = Origin::Range(Range { filling: 0, low: 10, high: 20 });
/// assert_eq!(range.to_string(), "by range 10 to 20 of filling 0");
/// ```
#[derive(Clone, Copy, Debug, PartialEq, Eq, Hash)]
pub enum Origin {
    /// A value.
    Value {
        /// The filling's number.
        filling: u8,
        /// The value.
        value: Value,
    },
    /// A range.
    Range(Range),
}

impl Reason {
    /// The sentence.
    ///
    /// ```
    /// # use wurzsige::{Builder, Named::Plain, Origin, Reasoned, ReasonStep, Row};
    /// # let mut builder = Builder::new();
    /// # let [number, ward] = builder.table("subjects", [Plain("number"), Plain("ward")]);
    /// # let [subject] = builder.table("recordings", [Plain("subject")]);
    /// # builder.constraint(number, subject);
    /// # builder.filling(ward, 1..=99);
    /// # builder.row(Row::new(0, [7, 3]));
    /// # builder.row(Row::new(1, [7]));
    /// # let mut desk = builder.open()?;
    /// # desk.refer(0, 3)?;
    /// let Reasoned::Reason(reason) = desk.reason(1)? else {
    ///     panic!("it isn't cached");
    /// };
    /// assert!(reason.words().starts_with("row 1 by constraint 0 from row 0"));
    /// # Ok::<(), Box<dyn std::error::Error>>(())
    /// ```
    pub fn words(&self) -> &str {
        &self.words
    }

    /// The number of the row that it is about.
    ///
    /// ```
    /// # use wurzsige::{Builder, Named::Plain, Origin, Reasoned, ReasonStep, Row};
    /// # let mut builder = Builder::new();
    /// # let [number, ward] = builder.table("subjects", [Plain("number"), Plain("ward")]);
    /// # let [subject] = builder.table("recordings", [Plain("subject")]);
    /// # builder.constraint(number, subject);
    /// # builder.filling(ward, 1..=99);
    /// # builder.row(Row::new(0, [7, 3]));
    /// # builder.row(Row::new(1, [7]));
    /// # let mut desk = builder.open()?;
    /// # desk.refer(0, 3)?;
    /// let Reasoned::Reason(reason) = desk.reason(1)? else {
    ///     panic!("it isn't cached");
    /// };
    /// assert_eq!(reason.row(), 1);
    /// # Ok::<(), Box<dyn std::error::Error>>(())
    /// ```
    pub fn row(&self) -> u16 {
        self.row
    }

    /// The demands from the row back: the first is for the row itself, and the last one's
    /// row has what is held in the filling's column.
    ///
    /// ```
    /// # use wurzsige::{Builder, Named::Plain, Origin, Reasoned, ReasonStep, Row};
    /// # let mut builder = Builder::new();
    /// # let [number, ward] = builder.table("subjects", [Plain("number"), Plain("ward")]);
    /// # let [subject] = builder.table("recordings", [Plain("subject")]);
    /// # builder.constraint(number, subject);
    /// # builder.filling(ward, 1..=99);
    /// # builder.row(Row::new(0, [7, 3]));
    /// # builder.row(Row::new(1, [7]));
    /// # let mut desk = builder.open()?;
    /// # desk.refer(0, 3)?;
    /// let Reasoned::Reason(reason) = desk.reason(1)? else {
    ///     panic!("it isn't cached");
    /// };
    /// assert_eq!(reason.steps(), [ReasonStep { constraint: 0, row: 0 }]);
    /// # Ok::<(), Box<dyn std::error::Error>>(())
    /// ```
    pub fn steps(&self) -> &[ReasonStep] {
        &self.steps
    }

    /// What is held.
    ///
    /// ```
    /// # use wurzsige::{Builder, Named::Plain, Origin, Reasoned, ReasonStep, Row};
    /// # let mut builder = Builder::new();
    /// # let [number, ward] = builder.table("subjects", [Plain("number"), Plain("ward")]);
    /// # let [subject] = builder.table("recordings", [Plain("subject")]);
    /// # builder.constraint(number, subject);
    /// # builder.filling(ward, 1..=99);
    /// # builder.row(Row::new(0, [7, 3]));
    /// # builder.row(Row::new(1, [7]));
    /// # let mut desk = builder.open()?;
    /// # desk.refer(0, 3)?;
    /// let Reasoned::Reason(reason) = desk.reason(1)? else {
    ///     panic!("it isn't cached");
    /// };
    /// assert_eq!(reason.origin(), Origin::Value { filling: 0, value: 3.into() });
    /// # Ok::<(), Box<dyn std::error::Error>>(())
    /// ```
    pub fn origin(&self) -> Origin {
        self.origin
    }

    /// Reads a sentence of the desk; none if it isn't one.
    pub(crate) fn read(words: String) -> Option<Reason> {
        let mut reader = Reader(words.split_ascii_whitespace());
        let row = reader.word("row")?.number()?;
        let mut steps = Vec::new();
        let origin = loop {
            match reader.word("by")?.0.next()? {
                "constraint" => steps.push(reader.step()?),
                "value" => break reader.value()?,
                "range" => break reader.range()?,
                _ => return None,
            }
        };
        Some(Reason {
            row,
            steps,
            origin,
            words,
        })
    }
}

/// A sentence's words from some place on.
struct Reader<'a>(SplitAsciiWhitespace<'a>);

impl Reader<'_> {
    /// Takes a word, which has to be this one.
    fn word(&mut self, expected: &str) -> Option<&mut Self> {
        (self.0.next()? == expected).then_some(self)
    }

    fn number<N: core::str::FromStr>(&mut self) -> Option<N> {
        self.0.next()?.parse().ok()
    }

    /// What stands behind `by constraint`.
    fn step(&mut self) -> Option<ReasonStep> {
        Some(ReasonStep {
            constraint: self.number()?,
            row: self.word("from")?.word("row")?.number()?,
        })
    }

    /// What stands behind `by value`, up to the end.
    fn value(&mut self) -> Option<Origin> {
        let number = self.number()?;
        let issue = match self.0.next()? {
            "issue" => {
                let issue = self.number()?;
                self.word("of")?;
                issue
            }
            "of" => 0,
            _ => return None,
        };
        let filling = self.word("filling")?.number()?;
        let value = Value { number, issue };
        self.end().then_some(Origin::Value { filling, value })
    }

    /// What stands behind `by range`, up to the end.
    fn range(&mut self) -> Option<Origin> {
        let low = self.number()?;
        let high = self.word("to")?.number()?;
        let filling = self.word("of")?.word("filling")?.number()?;
        let range = Range { filling, low, high };
        self.end().then_some(Origin::Range(range))
    }

    fn end(&mut self) -> bool {
        self.0.next().is_none()
    }
}

/// The sentence.
impl fmt::Display for Reason {
    fn fmt(&self, out: &mut fmt::Formatter<'_>) -> fmt::Result {
        out.write_str(&self.words)
    }
}

/// As the sentence has it.
impl fmt::Display for ReasonStep {
    fn fmt(&self, out: &mut fmt::Formatter<'_>) -> fmt::Result {
        let ReasonStep { constraint, row } = self;
        write!(out, "by constraint {constraint} from row {row}")
    }
}

/// As the sentence has it.
impl fmt::Display for Origin {
    fn fmt(&self, out: &mut fmt::Formatter<'_>) -> fmt::Result {
        match *self {
            Origin::Value { filling, value } => {
                write!(out, "by value {}", value.number)?;
                if value.issue != 0 {
                    write!(out, " issue {}", value.issue)?;
                }
                write!(out, " of filling {filling}")
            }
            Origin::Range(Range { filling, low, high }) => {
                write!(out, "by range {low} to {high} of filling {filling}")
            }
        }
    }
}

#[cfg(test)]
mod tests {
    use super::*;
    use std::string::ToString;

    fn read(words: &str) -> Option<Reason> {
        Reason::read(words.to_string())
    }

    #[test]
    fn what_is_read_prints_as_it_was() {
        for words in [
            "row 0 by value 3 of filling 0",
            "row 6 by constraint 1 from row 4 by constraint 0 from row 2 by value 9 of filling 7",
            "row 511 by constraint 15 from row 0 by value 4294967295 issue 255 of filling 1",
            "row 6 by constraint 0 from row 1 by range 5000 to 5199 of filling 0",
        ] {
            let reason = read(words).expect("a reason");
            let steps = reason.steps().iter().map(|step| std::format!(" {step}"));
            let steps: String = steps.collect();
            let again = std::format!("row {}{steps} {}", reason.row(), reason.origin());
            assert_eq!(again, words);
            assert_eq!(reason.words(), words);
        }
    }

    #[test]
    fn nothing_else_is_read() {
        for words in [
            "",
            "absent",
            "row",
            "row 5",
            "row 5 by value 3 of filling",
            "row 5 by value 3 issue 1 filling 0",
            "row 5 by value 3 of filling 256",
            "row 5 by value 3 of filling 0 or so",
            "row 5 by constraint 1 of row 3 by value 3 of filling 0",
            "row 5 by constraint 1 from row 3",
            "row 5 by range 3 of filling 0",
            "row 5 by luck",
        ] {
            assert_eq!(read(words), None, "{words}");
        }
    }
}
