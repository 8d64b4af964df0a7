//! A desk over a slice of a larger database: what must still be fetched, and the list of
//! what was.

use alloc::vec::Vec;
use core::fmt;

use wurzsige_sys::FETCH_WORDS;

use crate::desk::Desk;
use crate::fault::explained;
use crate::operand::{Column, Value};
use crate::refusal::{Cause, Refusal};

/// All rows of a database that have a value in a column, or a number of a span there.
///
/// ```
/// use wurzsige::{Column, Fetch};
///
/// let ward = Column::new(0, 1);
/// let fetch = Fetch::Span { column: ward, low: 3, high: 5 };
/// assert!(fetch.covers(ward, 4) && !fetch.covers(ward, 6) && !fetch.covers(ward, (4, 1)));
/// assert_eq!(fetch.to_string(), "0.1 = 3..5");
/// ```
#[derive(Clone, Copy, Debug, PartialEq, Eq, Hash)]
pub enum Fetch {
    /// The rows with this value in this column.
    Value {
        /// The column.
        column: Column,
        /// The value.
        value: Value,
    },
    /// The rows with one of these numbers in this column, both ends counted, at issue 0.
    Span {
        /// The column.
        column: Column,
        /// The lowest number.
        low: u32,
        /// The highest number.
        high: u32,
    },
}

impl Fetch {
    /// Its column.
    ///
    /// ```
    /// use wurzsige::{Column, Fetch};
    ///
    /// let ward = Column::new(0, 1);
    /// assert_eq!(Fetch::Value { column: ward, value: 3.into() }.column(), ward);
    /// ```
    pub fn column(&self) -> Column {
        match *self {
            Fetch::Value { column, .. } | Fetch::Span { column, .. } => column,
        }
    }

    /// Whether it asks for the rows with a value in a column.
    ///
    /// ```
    /// use wurzsige::{Column, Fetch};
    ///
    /// let ward = Column::new(0, 1);
    /// let fetch = Fetch::Value { column: ward, value: 3.into() };
    /// assert!(fetch.covers(ward, 3) && !fetch.covers(ward, 4));
    /// ```
    pub fn covers(&self, column: Column, value: impl Into<Value>) -> bool {
        let wanted = value.into();
        column == self.column()
            && match *self {
                Fetch::Value { value, .. } => value == wanted,
                Fetch::Span { low, high, .. } => {
                    wanted.issue == 0 && low <= wanted.number && wanted.number <= high
                }
            }
    }

    fn words(self) -> [u32; FETCH_WORDS] {
        let Column { table, column } = self.column();
        let (kind, number, end) = match self {
            Fetch::Value { value, .. } => (0, value.number, value.issue.into()),
            Fetch::Span { low, high, .. } => (1, low, high),
        };
        [kind, table.into(), column.into(), number, end]
    }

    fn from_words(words: [u32; FETCH_WORDS]) -> Fetch {
        let [kind, table, column, number, end] = words;
        let column = Column::new(table as u8, column as u8);
        match kind {
            0 => Fetch::Value {
                column,
                value: (number, end as u8).into(),
            },
            _ => Fetch::Span {
                column,
                low: number,
                high: end,
            },
        }
    }
}

/// As `0.1 = 7`, `0.1 = 7#1` or `0.1 = 3..5`.
impl fmt::Display for Fetch {
    fn fmt(&self, out: &mut fmt::Formatter<'_>) -> fmt::Result {
        match self {
            Fetch::Value { column, value } => write!(out, "{column} = {value}"),
            Fetch::Span { column, low, high } => write!(out, "{column} = {low}..{high}"),
        }
    }
}

/// What was fetched of a database, whole, in the order in which the library takes it.
///
/// ```
/// use wurzsige::{Column, Fetch, Fetches};
///
/// let ward = Column::new(0, 1);
/// let mut fetches = Fetches::new();
/// fetches.note(Fetch::Span { column: ward, low: 1, high: 4 });
/// fetches.note(Fetch::Value { column: ward, value: 9.into() });
/// fetches.note(Fetch::Span { column: ward, low: 5, high: 7 });
/// let listed: Vec<String> = fetches.iter().map(|fetch| fetch.to_string()).collect();
/// assert_eq!(listed, ["0.1 = 9", "0.1 = 1..7"]);
/// ```
#[derive(Clone, Debug, Default, PartialEq, Eq)]
pub struct Fetches {
    /// Values before spans, then by table, column, number and issue; the spans of a column
    /// have gaps between them.
    words: Vec<[u32; FETCH_WORDS]>,
}

impl Fetches {
    /// Nothing was fetched.
    ///
    /// ```
    /// assert_eq!(wurzsige::Fetches::new().iter().count(), 0);
    /// ```
    pub fn new() -> Fetches {
        Fetches::default()
    }

    /// Notes that a fetch was made, and all its rows were put in. Spans that overlap or
    /// touch become one; a fetch that asks for no row, of a blank or of an empty span, isn't
    /// noted.
    ///
    /// ```
    /// use wurzsige::{Column, Fetch, Fetches};
    ///
    /// let mut fetches = Fetches::new();
    /// let column = Column::new(0, 0);
    /// fetches.note(Fetch::Value { column, value: 7.into() });
    /// fetches.note(Fetch::Value { column, value: 7.into() });
    /// fetches.note(Fetch::Value { column, value: 0.into() });
    /// fetches.note(Fetch::Span { column, low: 9, high: 8 });
    /// assert_eq!(fetches.iter().count(), 1);
    /// ```
    pub fn note(&mut self, fetch: Fetch) {
        match fetch {
            Fetch::Value { value, .. } if value.number == 0 => {}
            Fetch::Value { .. } => self.insert(fetch.words()),
            Fetch::Span { column, low, high } => self.note_span(column, low.max(1), high),
        }
    }

    fn note_span(&mut self, column: Column, low: u32, high: u32) {
        if low > high {
            return;
        }
        let span = Fetch::Span { column, low, high };
        let [kind, table, place, mut first, mut last] = span.words();
        self.words.retain(|&[a, b, c, low, high]| {
            let meets = [a, b, c] == [kind, table, place]
                && u64::from(low) <= u64::from(last) + 1
                && u64::from(first) <= u64::from(high) + 1;
            if meets {
                (first, last) = (first.min(low), last.max(high));
            }
            !meets
        });
        self.insert([kind, table, place, first, last]);
    }

    fn insert(&mut self, words: [u32; FETCH_WORDS]) {
        if let Err(place) = self.words.binary_search(&words) {
            self.words.insert(place, words);
        }
    }

    /// The fetches, in their order.
    ///
    /// ```
    /// use wurzsige::{Column, Fetch, Fetches};
    ///
    /// let fetch = Fetch::Value { column: Column::new(0, 1), value: 3.into() };
    /// let mut fetches = Fetches::new();
    /// fetches.note(fetch);
    /// assert!(fetches.iter().eq([fetch]));
    /// ```
    pub fn iter(&self) -> impl Iterator<Item = Fetch> + '_ {
        self.words.iter().map(|&words| Fetch::from_words(words))
    }

    /// Whether one of them asked for the rows with a value in a column. A row that comes to
    /// the database has to be put in exactly if this is so for one of its cells.
    ///
    /// ```
    /// use wurzsige::{Column, Fetch, Fetches};
    ///
    /// let ward = Column::new(0, 1);
    /// let mut fetches = Fetches::new();
    /// fetches.note(Fetch::Span { column: ward, low: 3, high: 5 });
    /// assert!(fetches.cover(ward, 4) && !fetches.cover(ward, 6));
    /// ```
    pub fn cover(&self, column: Column, value: impl Into<Value>) -> bool {
        let value = value.into();
        self.iter().any(|fetch| fetch.covers(column, value))
    }
}

impl Desk {
    /// What must be fetched next of the database of which this desk's rows are a part, and
    /// `fetches` were fetched whole; or that nothing is missing. If nothing is, both before
    /// and after an operation, it is answered as it would be with all rows of the database,
    /// but for [`Desk::opener`], and the numbers of rows.
    ///
    /// That what is in `fetches` was fetched whole, from one database whose unique columns
    /// are unique, is for the caller to see to.
    ///
    /// Refused: a fetch of a column that isn't there (5).
    ///
    /// ```
    /// use wurzsige::{Builder, Fetch, Fetches, Named::Plain, Row};
    ///
    /// let mut builder = Builder::new();
    /// let [number, ward] = builder.table("subjects", [Plain("number"), Plain("ward")]);
    /// builder.filling(ward, 1..=99);
    /// let mut desk = builder.open()?;
    /// desk.refer(0, 3)?;
    ///
    /// // Ward 3 is held, and no row is there: the database has to be asked for its rows.
    /// let mut fetches = Fetches::new();
    /// let fetch = Fetch::Value { column: ward, value: 3.into() };
    /// assert_eq!(desk.missing(&fetches)?, Some(fetch));
    /// desk.put_row(0, &Row::new(0, [7, 3]))?;
    /// fetches.note(fetch);
    /// assert_eq!(desk.missing(&fetches)?, None);
    /// # Ok::<(), Box<dyn std::error::Error>>(())
    /// ```
    pub fn missing(&self, fetches: &Fetches) -> Result<Option<Fetch>, Refusal> {
        let missing = self.missing_words(&fetches.words);
        let missing = missing.map(|words| words.map(Fetch::from_words));
        missing.map_err(|cause| self.refused_fetches(fetches, cause))
    }

    fn refused_fetches(&self, fetches: &Fetches, cause: u8) -> Refusal {
        let refusal = Refusal {
            cause: Cause::with_number(cause).expect("a cause that there is"),
            place: None,
            operand: None,
        };
        let design = self.design();
        let fault = fetches
            .iter()
            .find_map(|fetch| design.column_fault(fetch.column()));
        explained(refusal, fault)
    }
}
