//! What each operation answers, as types of their own.

use alloc::vec::Vec;

use crate::answer::{Answer, Ground, Lists};
use crate::operand::Value;
use crate::reason::Reason;
use crate::refusal::Refusal;

/// What comes of a load.
///
/// ```
/// use wurzsige::{Builder, Named::Plain, Referred, Row};
///
/// let mut builder = Builder::new();
/// let [ward] = builder.table("wards", [Plain("ward")]);
/// builder.filling(ward, 1..=99);
/// builder.row(Row::new(0, [3]));
/// let mut desk = builder.open()?;
/// assert_eq!(desk.refer(0, 3)?, Referred::Loaded { rows: 1, rounds: 0 });
/// assert_eq!(desk.refer(0, 3)?, Referred::Held);
/// assert_eq!(desk.refer(0, 100)?, Referred::NoCandidate);
/// # Ok::<(), Box<dyn std::error::Error>>(())
/// ```
#[derive(Clone, Copy, Debug, PartialEq, Eq)]
pub enum Referred {
    /// It is held from now on.
    Loaded {
        /// Rows added.
        rows: usize,
        /// Later rounds that added a row.
        rounds: usize,
    },
    /// The desk held it already; nothing changed.
    Held,
    /// The filling doesn't have it among its candidates; nothing changed.
    NoCandidate,
}

/// What comes of a drop.
///
/// ```
/// use wurzsige::{Builder, Dropped, Named::Plain, Row};
///
/// let mut builder = Builder::new();
/// let [ward] = builder.table("wards", [Plain("ward")]);
/// builder.filling(ward, 1..=99);
/// builder.row(Row::new(0, [3]));
/// let mut desk = builder.open()?;
/// desk.refer(0, 3)?;
/// assert_eq!(desk.drop_value(0, 3)?, Dropped { rows: 1 });
/// # Ok::<(), Box<dyn std::error::Error>>(())
/// ```
#[derive(Clone, Copy, Debug, PartialEq, Eq)]
pub struct Dropped {
    /// Rows that went.
    pub rows: usize,
}

/// What a probe finds.
///
/// ```
/// use wurzsige::{Builder, Ground, Named::Plain, Probed};
///
/// let mut builder = Builder::new();
/// let [ward] = builder.table("wards", [Plain("ward")]);
/// builder.filling(ward, 1..=99);
/// let mut desk = builder.open()?;
/// assert_eq!(desk.probe(ward, 3)?, Probed::Sent);
/// desk.refer(0, 3)?;
/// assert_eq!(desk.probe(ward, 3)?, Probed::Ground { ground: Ground::Held, rows: 0 });
/// # Ok::<(), Box<dyn std::error::Error>>(())
/// ```
#[derive(Clone, Copy, Debug, PartialEq, Eq)]
pub enum Probed {
    /// The value is complete in the column.
    Ground {
        /// The lowest ground that applies.
        ground: Ground,
        /// The cached rows with the value, which are all that the backend has.
        rows: usize,
    },
    /// The backend has to be asked.
    Sent,
}

/// What a query is answered.
///
/// ```
/// use wurzsige::{Answered, Builder, Named::Plain, Query};
///
/// let mut builder = Builder::new();
/// let [ward, name] = builder.table("wards", [Plain("ward"), Plain("name")]);
/// builder.filling(ward, 1..=99);
/// let mut desk = builder.open()?;
/// assert_eq!(desk.query(&Query::new(name, 7))?, Answered::Sent);
/// let Answered::Lists(lists) = desk.query(&Query::new(ward, 3))? else {
///     panic!("it is a candidate");
/// };
/// assert!(lists.is_empty());
/// # Ok::<(), Box<dyn std::error::Error>>(())
/// ```
#[derive(Clone, Debug, PartialEq, Eq)]
pub enum Answered {
    /// Every fitting list, as the backend would give them.
    Lists(Lists),
    /// The backend has to be asked.
    Sent,
}

/// What a total comes to.
///
/// ```
/// use wurzsige::{Builder, Named::Plain, Query, Row, Totalled};
///
/// let mut builder = Builder::new();
/// let [ward, beds] = builder.table("wards", [Plain("ward"), Plain("beds")]);
/// builder.filling(ward, 1..=99);
/// builder.row(Row::new(0, [3, 12]));
/// builder.row(Row::new(0, [3, 8]));
/// let mut desk = builder.open()?;
/// assert_eq!(desk.total(&Query::new(ward, 3), 0, beds.column)?, Totalled::Total(20));
/// assert_eq!(desk.total(&Query::new(beds, 8), 0, 0)?, Totalled::Sent);
/// # Ok::<(), Box<dyn std::error::Error>>(())
/// ```
#[derive(Clone, Copy, Debug, PartialEq, Eq)]
pub enum Totalled {
    /// The sum over all lists of the query.
    Total(u64),
    /// The backend has to be asked.
    Sent,
}

/// Whether loads come to an end after few rounds.
///
/// ```
/// use wurzsige::{Builder, Evenness, Named::Plain};
///
/// let mut builder = Builder::new();
/// let [number, supervisor] = builder.table("staff", [Plain("number"), Plain("supervisor")]);
/// assert_eq!(builder.open()?.evenness(), Evenness::Even);
/// builder.constraint(supervisor, number);
/// assert_eq!(builder.open()?.evenness(), Evenness::Uneven { i: 0, j: 0 });
/// # Ok::<(), Box<dyn std::error::Error>>(())
/// ```
#[derive(Clone, Copy, Debug, PartialEq, Eq)]
pub enum Evenness {
    /// In T tables no load takes more than 2 T - 1 later rounds.
    Even,
    /// Two constraints, perhaps the same one, can feed each other.
    Uneven {
        /// The constraint that ends at a table; the lowest.
        i: u8,
        /// The constraint that starts at another column of it; the lowest with i.
        j: u8,
    },
}

impl Evenness {
    /// After how many later rounds every load is over in an even design of so many tables,
    /// whatever its rows: 2 T - 1, and none without tables. That is a theorem about the
    /// desk's answers (`even-bounds` of the crate `demands`).
    ///
    /// ```
    /// use wurzsige::Evenness;
    ///
    /// assert_eq!(Evenness::most_rounds(7), 13);
    /// ```
    pub fn most_rounds(tables: usize) -> usize {
        (2 * tables).saturating_sub(1)
    }
}

/// The smallest knot.
///
/// ```
/// use wurzsige::{Builder, Knot, Named::Plain};
///
/// let mut builder = Builder::new();
/// let [number, supervisor] = builder.table("staff", [Plain("number"), Plain("supervisor")]);
/// assert_eq!(builder.open()?.knot(), Knot::Even);
/// builder.constraint(supervisor, number);
/// assert_eq!(builder.open()?.knot(), Knot::Constraints(vec![0]));
/// # Ok::<(), Box<dyn std::error::Error>>(())
/// ```
#[derive(Clone, Debug, PartialEq, Eq)]
pub enum Knot {
    /// The design is even and has none.
    Even,
    /// The fewest constraints that are uneven without the others, rising.
    Constraints(Vec<u8>),
}

/// Why a row is cached.
///
/// ```
/// use wurzsige::{Builder, Named::Plain, Reasoned, Row};
///
/// let mut builder = Builder::new();
/// let [ward] = builder.table("wards", [Plain("ward")]);
/// builder.filling(ward, 1..=99);
/// builder.row(Row::new(0, [3]));
/// let mut desk = builder.open()?;
/// assert_eq!(desk.reason(0)?, Reasoned::Absent);
/// desk.refer(0, 3)?;
/// assert!(matches!(desk.reason(0)?, Reasoned::Reason(reason) if reason.steps().is_empty()));
/// # Ok::<(), Box<dyn std::error::Error>>(())
/// ```
#[derive(Clone, Debug, PartialEq, Eq)]
pub enum Reasoned {
    /// The shortest chain of demands.
    Reason(Reason),
    /// It isn't.
    Absent,
}

/// What would give a probe a ground.
///
/// ```
/// use wurzsige::{Builder, Named::Plain, Opener};
///
/// let mut builder = Builder::new();
/// let [ward, name] = builder.table("wards", [Plain("ward"), Plain("name")]);
/// builder.filling(ward, 1..=99);
/// let mut desk = builder.open()?;
/// assert_eq!(desk.opener(ward, 3)?, Opener::Value { filling: 0, value: 3.into() });
/// assert_eq!(desk.opener(name, 3)?, Opener::None);
/// desk.refer(0, 3)?;
/// assert_eq!(desk.opener(ward, 3)?, Opener::Open);
/// # Ok::<(), Box<dyn std::error::Error>>(())
/// ```
#[derive(Clone, Copy, Debug, PartialEq, Eq)]
pub enum Opener {
    /// It has one already.
    Open,
    /// The reference of this value would.
    Value {
        /// The lowest filling.
        filling: u8,
        /// Its lowest value.
        value: Value,
    },
    /// No candidate of any filling would.
    None,
}

/// What a row that came or went did to the cache.
///
/// ```
/// use wurzsige::{Builder, Changed, Named::Plain, Row};
///
/// let mut builder = Builder::new();
/// let [ward] = builder.table("wards", [Plain("ward")]);
/// builder.filling(ward, 1..=99);
/// let mut desk = builder.open()?;
/// desk.refer(0, 3)?;
/// assert_eq!(desk.put_row(0, &Row::new(0, [3]))?, Changed { came: 1, went: 0 });
/// # Ok::<(), Box<dyn std::error::Error>>(())
/// ```
#[derive(Clone, Copy, Debug, PartialEq, Eq)]
pub struct Changed {
    /// Rows that came, the row itself among them if it is cached.
    pub came: usize,
    /// Rows that went, the row itself among them if it was cached.
    pub went: usize,
}

/// An answer of one operation, taken from what any operation can answer. What the
/// operation never answers is given back.
pub(crate) trait Typed: Sized {
    fn typed(answer: Answer) -> Result<Self, Answer>;
}

/// The answer of an operation, unless it was refused.
pub(crate) fn typed<T: Typed>(answer: Answer) -> Result<T, Refusal> {
    match T::typed(answer) {
        Ok(typed) => Ok(typed),
        Err(Answer::Refused(refusal)) => Err(refusal),
        Err(answer) => unreachable!("the operation has no such answer: {answer}"),
    }
}

impl Typed for Referred {
    fn typed(answer: Answer) -> Result<Referred, Answer> {
        Ok(match answer {
            Answer::Loaded { rows, rounds } => Referred::Loaded { rows, rounds },
            Answer::Held => Referred::Held,
            Answer::NoCandidate => Referred::NoCandidate,
            other => return Err(other),
        })
    }
}

impl Typed for Dropped {
    fn typed(answer: Answer) -> Result<Dropped, Answer> {
        match answer {
            Answer::Dropped { rows } => Ok(Dropped { rows }),
            other => Err(other),
        }
    }
}

impl Typed for Probed {
    fn typed(answer: Answer) -> Result<Probed, Answer> {
        Ok(match answer {
            Answer::Ground { ground, rows } => Probed::Ground { ground, rows },
            Answer::Sent => Probed::Sent,
            other => return Err(other),
        })
    }
}

impl Typed for Answered {
    fn typed(answer: Answer) -> Result<Answered, Answer> {
        Ok(match answer {
            Answer::Lists(lists) => Answered::Lists(lists),
            Answer::Sent => Answered::Sent,
            other => return Err(other),
        })
    }
}

impl Typed for Totalled {
    fn typed(answer: Answer) -> Result<Totalled, Answer> {
        Ok(match answer {
            Answer::Total(total) => Totalled::Total(total),
            Answer::Sent => Totalled::Sent,
            other => return Err(other),
        })
    }
}

impl Typed for Evenness {
    fn typed(answer: Answer) -> Result<Evenness, Answer> {
        Ok(match answer {
            Answer::Even => Evenness::Even,
            Answer::Uneven { i, j } => Evenness::Uneven { i, j },
            other => return Err(other),
        })
    }
}

impl Typed for Knot {
    fn typed(answer: Answer) -> Result<Knot, Answer> {
        Ok(match answer {
            Answer::Even => Knot::Even,
            Answer::Knot(constraints) => Knot::Constraints(constraints),
            other => return Err(other),
        })
    }
}

impl Typed for Reasoned {
    fn typed(answer: Answer) -> Result<Reasoned, Answer> {
        Ok(match answer {
            Answer::Reason(reason) => Reasoned::Reason(reason),
            Answer::Absent => Reasoned::Absent,
            other => return Err(other),
        })
    }
}

impl Typed for Opener {
    fn typed(answer: Answer) -> Result<Opener, Answer> {
        Ok(match answer {
            Answer::Open => Opener::Open,
            Answer::Opener { filling, value } => Opener::Value { filling, value },
            Answer::NoOpener => Opener::None,
            other => return Err(other),
        })
    }
}

impl Typed for Changed {
    fn typed(answer: Answer) -> Result<Changed, Answer> {
        match answer {
            Answer::Changed { came, went } => Ok(Changed { came, went }),
            other => Err(other),
        }
    }
}
