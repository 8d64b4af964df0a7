//! What any operation answers.

use alloc::string::String;
use alloc::vec::Vec;
use core::fmt;
use core::ops::Index;
use core::slice::ChunksExact;

use wurzsige_sys::{ROWS, Told, word};

use crate::operand::Value;
use crate::reason::Reason;
use crate::refusal::{Cause, Refusal};

/// Why a value is known to be complete in a column.
///
/// ```
/// use wurzsige::Ground;
///
/// assert_eq!([Ground::Held, Ground::Linked, Ground::Unique].map(Ground::number), [1, 2, 3]);
/// ```
#[derive(Clone, Copy, Debug, PartialEq, Eq, Hash)]
#[repr(u8)]
pub enum Ground {
    /// The value is held by a filling of the column.
    Held = 1,
    /// A constraint ends at the column, and a cached row has the value in its source
    /// column.
    Linked = 2,
    /// The column is unique, and a cached row of the table has the value there.
    Unique = 3,
}

impl Ground {
    /// The number, from 1 to 3.
    ///
    /// ```
    /// assert_eq!(wurzsige::Ground::Linked.number(), 2);
    /// ```
    pub fn number(self) -> u8 {
        self as u8
    }

    fn with_number(number: u64) -> Ground {
        match number {
            1 => Ground::Held,
            2 => Ground::Linked,
            3 => Ground::Unique,
            number => unreachable!("there is no ground {number}"),
        }
    }
}

/// The lists of row numbers that fit a query, in rising order of the first number, then
/// the second, and so on. Each has a number for each of the query's positions.
///
/// ```
/// use wurzsige::{Answered, Builder, Named::Plain, Query, Row};
///
/// let mut builder = Builder::new();
/// let [number, ward] = builder.table("subjects", [Plain("number"), Plain("ward")]);
/// let [_, subject] = builder.table("recordings", [Plain("number"), Plain("subject")]);
/// let brings = builder.constraint(number, subject);
/// builder.filling(ward, 1..=99);
/// for row in [Row::new(0, [7, 3]), Row::new(1, [20, 7]), Row::new(1, [21, 7])] {
///     builder.row(row);
/// }
/// let mut desk = builder.open()?;
/// let Answered::Lists(lists) = desk.query(&Query::new(ward, 3).join(0, brings))? else {
///     panic!("ask the backend");
/// };
/// assert_eq!((lists.len(), lists.positions(), lists.is_empty()), (2, 2, false));
/// assert_eq!(lists[1], [0, 2]);
/// assert_eq!(lists.iter().collect::<Vec<_>>(), [[0, 1], [0, 2]]);
/// # Ok::<(), Box<dyn std::error::Error>>(())
/// ```
#[derive(Clone, Debug, PartialEq, Eq)]
pub struct Lists {
    positions: usize,
    rows: Vec<u16>,
}

impl Lists {
    /// The lists in the words that were lent.
    fn in_words(positions: usize, lists: usize, words: &[u32]) -> Lists {
        let words = &words[..lists * positions];
        // looked at together, and then narrowed together, which takes a fraction of the time
        let are_rows = words
            .iter()
            .fold(true, |are, &word| are & (word < ROWS as u32));
        assert!(are_rows, "a row number is below 512");
        Lists {
            positions,
            rows: words.iter().map(|&word| word as u16).collect(),
        }
    }

    /// How many lists there are.
    ///
    /// ```
    /// # use wurzsige::{Answered, Builder, Named::Plain, Query, Row};
    /// # let mut builder = Builder::new();
    /// # let [ward] = builder.table("wards", [Plain("ward")]);
    /// # builder.filling(ward, 1..=99);
    /// # builder.row(Row::new(0, [3]));
    /// # builder.row(Row::new(0, [3]));
    /// # let mut desk = builder.open()?;
    /// let Answered::Lists(lists) = desk.query(&Query::new(ward, 3))? else {
    ///     panic!("ask the backend");
    /// };
    /// assert_eq!(lists.len(), 2);
    /// # Ok::<(), Box<dyn std::error::Error>>(())
    /// ```
    pub fn len(&self) -> usize {
        self.rows.len() / self.positions
    }

    /// Whether there is none, which is certain then.
    ///
    /// ```
    /// # use wurzsige::{Answered, Builder, Named::Plain, Query, Row};
    /// # let mut builder = Builder::new();
    /// # let [ward] = builder.table("wards", [Plain("ward")]);
    /// # builder.filling(ward, 1..=99);
    /// # builder.row(Row::new(0, [3]));
    /// # builder.row(Row::new(0, [3]));
    /// # let mut desk = builder.open()?;
    /// let Answered::Lists(lists) = desk.query(&Query::new(ward, 4))? else {
    ///     panic!("ask the backend");
    /// };
    /// assert!(lists.is_empty());
    /// # Ok::<(), Box<dyn std::error::Error>>(())
    /// ```
    pub fn is_empty(&self) -> bool {
        self.rows.is_empty()
    }

    /// How many row numbers each list has.
    ///
    /// ```
    /// # use wurzsige::{Answered, Builder, Named::Plain, Query, Row};
    /// # let mut builder = Builder::new();
    /// # let [ward] = builder.table("wards", [Plain("ward")]);
    /// # builder.filling(ward, 1..=99);
    /// # builder.row(Row::new(0, [3]));
    /// # builder.row(Row::new(0, [3]));
    /// # let mut desk = builder.open()?;
    /// let Answered::Lists(lists) = desk.query(&Query::new(ward, 3))? else {
    ///     panic!("ask the backend");
    /// };
    /// assert_eq!(lists.positions(), 1);
    /// # Ok::<(), Box<dyn std::error::Error>>(())
    /// ```
    pub fn positions(&self) -> usize {
        self.positions
    }

    /// The row numbers of all lists, one list after another.
    ///
    /// ```
    /// # use wurzsige::{Answered, Builder, Named::Plain, Query, Row};
    /// # let mut builder = Builder::new();
    /// # let [ward] = builder.table("wards", [Plain("ward")]);
    /// # builder.filling(ward, 1..=99);
    /// # builder.row(Row::new(0, [3]));
    /// # builder.row(Row::new(0, [3]));
    /// # let mut desk = builder.open()?;
    /// let Answered::Lists(lists) = desk.query(&Query::new(ward, 3))? else {
    ///     panic!("ask the backend");
    /// };
    /// assert_eq!(lists.rows(), [0, 1]);
    /// # Ok::<(), Box<dyn std::error::Error>>(())
    /// ```
    pub fn rows(&self) -> &[u16] {
        &self.rows
    }

    /// The lists one after another.
    ///
    /// ```
    /// # use wurzsige::{Answered, Builder, Named::Plain, Query, Row};
    /// # let mut builder = Builder::new();
    /// # let [ward] = builder.table("wards", [Plain("ward")]);
    /// # builder.filling(ward, 1..=99);
    /// # builder.row(Row::new(0, [3]));
    /// # builder.row(Row::new(0, [3]));
    /// # let mut desk = builder.open()?;
    /// let Answered::Lists(lists) = desk.query(&Query::new(ward, 3))? else {
    ///     panic!("ask the backend");
    /// };
    /// let rows: Vec<u16> = lists.iter().map(|list| list[0]).collect();
    /// assert_eq!(rows, [0, 1]);
    /// # Ok::<(), Box<dyn std::error::Error>>(())
    /// ```
    pub fn iter(&self) -> ChunksExact<'_, u16> {
        self.rows.chunks_exact(self.positions)
    }
}

/// The list with a number.
impl Index<usize> for Lists {
    type Output = [u16];

    fn index(&self, list: usize) -> &[u16] {
        &self.rows[list * self.positions..][..self.positions]
    }
}

impl<'a> IntoIterator for &'a Lists {
    type Item = &'a [u16];
    type IntoIter = ChunksExact<'a, u16>;

    fn into_iter(self) -> ChunksExact<'a, u16> {
        self.iter()
    }
}

/// What an operation answers, whichever it is. Its text is what the desk's report has
/// behind the number of the operation; lists stand on lines after it.
///
/// ```
/// use wurzsige::{Answer, Desk};
///
/// let script = [0x01, 1, 0, 0x05, 0x14, 0x17, 2];
/// let mut desk = Desk::open(&script)?;
/// assert_eq!(desk.step(&script, 4).answer, Answer::Even);
/// assert_eq!(desk.step(&script, 5).answer.to_string(), "desk 2");
/// # Ok::<(), wurzsige::Refusal>(())
/// ```
#[derive(Clone, Debug, PartialEq, Eq)]
#[non_exhaustive]
pub enum Answer {
    /// The value or range is held now.
    Loaded {
        /// Rows added.
        rows: usize,
        /// Later rounds that added a row.
        rounds: usize,
    },
    /// The desk held it already.
    Held,
    /// The filling doesn't have it among its candidates.
    NoCandidate,
    /// The value or range isn't held any more.
    Dropped {
        /// Rows that went.
        rows: usize,
    },
    /// A probe's yes.
    Ground {
        /// Why.
        ground: Ground,
        /// Cached rows of the table that have the value in the column.
        rows: usize,
    },
    /// The backend has to be asked.
    Sent,
    /// A query's lists.
    Lists(Lists),
    /// The operation was refused, and changed nothing.
    Refused(Refusal),
    /// The design is even.
    Even,
    /// The design is uneven, by two constraints or one.
    Uneven {
        /// The constraint that ends at a table.
        i: u8,
        /// The constraint that starts at another column of it.
        j: u8,
    },
    /// The sum of a cell over a query's lists.
    Total(u64),
    /// The fewest constraints that are uneven without the others, rising.
    Knot(Vec<u8>),
    /// The desk that is named from now on.
    Desk(u8),
    /// The probe has a ground already.
    Open,
    /// What would give it one.
    Opener {
        /// The filling.
        filling: u8,
        /// The value.
        value: Value,
    },
    /// Nothing would.
    NoOpener,
    /// The row isn't cached.
    Absent,
    /// Why the row is cached.
    Reason(Reason),
    /// A row was put in or removed.
    Changed {
        /// Rows that came to the cache.
        came: usize,
        /// Rows that went from it.
        went: usize,
    },
}

impl Answer {
    /// The answer that was told, with lists of so many positions in the lent words, or a
    /// sentence in the lent text.
    pub(crate) fn told(told: &Told, positions: usize, words: &[u32], text: &[u8]) -> Answer {
        let [first, second, third, ..] = told.numbers;
        match told.word {
            word::LOADED => Answer::Loaded {
                rows: count(first),
                rounds: count(second),
            },
            word::HELD => Answer::Held,
            word::NO_CANDIDATE => Answer::NoCandidate,
            word::DROPPED => Answer::Dropped { rows: count(first) },
            word::GROUND => Answer::Ground {
                ground: Ground::with_number(first),
                rows: count(second),
            },
            word::SENT => Answer::Sent,
            word::LISTS => Answer::Lists(Lists::in_words(positions, count(first), words)),
            word::REFUSED => Answer::Refused(refusal(told)),
            word::EVEN => Answer::Even,
            word::UNEVEN => Answer::Uneven {
                i: number(first),
                j: number(second),
            },
            word::TOTAL => Answer::Total(first),
            word::KNOT => {
                let constraints = &told.numbers[..usize::from(told.count)];
                Answer::Knot(constraints.iter().copied().map(number).collect())
            }
            word::DESK => Answer::Desk(number(first)),
            word::OPEN => Answer::Open,
            word::OPENER => Answer::Opener {
                filling: number(first),
                value: Value {
                    number: u32::try_from(second).expect("a cell's number"),
                    issue: number(third),
                },
            },
            word::NO_OPENER => Answer::NoOpener,
            word::ABSENT => Answer::Absent,
            word::REASON => {
                let sentence = String::from_utf8(text[..count(first)].to_vec());
                let reason = sentence.ok().and_then(Reason::read);
                Answer::Reason(reason.expect("a sentence of the desk"))
            }
            word::CHANGED => Answer::Changed {
                came: count(first),
                went: count(second),
            },
            word => unreachable!("no operation has the word {word}"),
        }
    }
}

/// The refusal that was told.
pub(crate) fn refusal(told: &Told) -> Refusal {
    let cause = Cause::with_number(number(told.numbers[0])).expect("a cause that there is");
    Refusal {
        cause,
        place: (cause != Cause::OtherVersion).then_some(told.place),
        operand: None,
    }
}

fn count(number: u64) -> usize {
    usize::try_from(number).expect("a count of what lies in memory")
}

fn number(number: u64) -> u8 {
    u8::try_from(number).expect("a number of a design's part")
}

impl fmt::Display for Answer {
    fn fmt(&self, out: &mut fmt::Formatter<'_>) -> fmt::Result {
        match self {
            Answer::Loaded { rows, rounds } => write!(out, "loaded {rows} {rounds}"),
            Answer::Held => write!(out, "held"),
            Answer::NoCandidate => write!(out, "no candidate"),
            Answer::Dropped { rows } => write!(out, "dropped {rows}"),
            Answer::Ground { ground, rows } => write!(out, "ground {} {rows}", ground.number()),
            Answer::Sent => write!(out, "sent"),
            Answer::Lists(lists) => {
                write!(out, "answer {}", lists.len())?;
                for list in lists {
                    out.write_str("\n")?;
                    write_numbers(out, list)?;
                }
                Ok(())
            }
            Answer::Refused(refusal) => {
                let place = refusal.place.unwrap_or(0);
                write!(out, "refused {} {place}", refusal.cause.number())
            }
            Answer::Even => write!(out, "even"),
            Answer::Uneven { i, j } => write!(out, "uneven {i} {j}"),
            Answer::Total(total) => write!(out, "total {total}"),
            Answer::Knot(constraints) => {
                write!(out, "knot ")?;
                write_numbers(out, constraints)
            }
            Answer::Desk(desk) => write!(out, "desk {desk}"),
            Answer::Open => write!(out, "open"),
            Answer::Opener { filling, value } => {
                write!(out, "{filling} {} {}", value.number, value.issue)
            }
            Answer::NoOpener => write!(out, "none"),
            Answer::Absent => write!(out, "absent"),
            Answer::Reason(reason) => write!(out, "{reason}"),
            Answer::Changed { came, went } => write!(out, "rows {came} {went}"),
        }
    }
}

/// Numbers with blanks between them.
fn write_numbers<N: fmt::Display>(out: &mut fmt::Formatter<'_>, numbers: &[N]) -> fmt::Result {
    for (place, number) in numbers.iter().enumerate() {
        let blank = if place == 0 { "" } else { " " };
        write!(out, "{blank}{number}")?;
    }
    Ok(())
}
