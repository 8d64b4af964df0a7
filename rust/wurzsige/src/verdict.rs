//! What a design decides of a column before any row is there.

use alloc::vec::Vec;

use wurzsige_sys::{VERDICT_WORDS, verdict};

use crate::desk::Desk;
use crate::operand::{Column, Row};
use crate::parts::{Design, words_of};
use crate::refusal::{Cause, Refusal};

/// What can come of probes of a column, whatever the rows are.
///
/// ```
/// use wurzsige::{Builder, Named::{Plain, Unique}};
///
/// let mut builder = Builder::new();
/// let [subject, ward] = builder.table("subjects", [Unique("number"), Plain("ward")]);
/// let [_, of] = builder.table("recordings", [Plain("number"), Plain("subject")]);
/// let recordings = builder.constraint(subject, of);
/// builder.filling(ward, 1..=99);
///
/// let verdicts = builder.design().verdicts()?;
/// let of_column = |column| verdicts.iter().find(|verdict| verdict.column == column).unwrap();
/// assert!(of_column(ward).fetches && of_column(ward).seeing_is_enough);
/// assert!(of_column(subject).once_unique);
/// assert_eq!(of_column(of).once_linked, Some(recordings));
/// // The numbers of recordings: nothing ever says that all rows with one are there.
/// assert!(verdicts[2].never());
/// # Ok::<(), wurzsige::Refusal>(())
/// ```
#[derive(Clone, Copy, Debug, PartialEq, Eq)]
#[non_exhaustive]
pub struct Verdict {
    /// The column.
    pub column: Column,
    /// A load can be asked for its values: it has a filling. They have ground 1 then.
    pub fetches: bool,
    /// Ground 2 can apply: the lowest constraint by which a value is complete in the column
    /// once a cached row has it at the constraint's source.
    pub once_linked: Option<u8>,
    /// Ground 3 can apply: the column is unique, and a value is complete there once a cached
    /// row has it.
    pub once_unique: bool,
    /// Every value that a cached row has in the column is complete there, by ground 1 or 2.
    pub seeing_is_enough: bool,
    never: bool,
}

impl Verdict {
    /// No ground can ever apply: every probe of the column is sent.
    ///
    /// ```
    /// use wurzsige::Desk;
    ///
    /// // A table of two columns, of which the first is unique, and no filling.
    /// assert!(Desk::open(&[0x01, 2, 1, 0x05])?.verdicts()[1].never());
    /// # Ok::<(), wurzsige::Refusal>(())
    /// ```
    pub fn never(&self) -> bool {
        self.never
    }

    fn from_word(column: Column, word: u32) -> Verdict {
        let has = |part: u32| word & part != 0;
        let link = (word / 256) as u8;
        Verdict {
            column,
            fetches: has(verdict::FETCHES),
            once_linked: has(verdict::ONCE_LINKED).then_some(link),
            once_unique: has(verdict::ONCE_UNIQUE),
            seeing_is_enough: has(verdict::SEEING),
            never: has(verdict::NEVER),
        }
    }
}

/// The verdicts on the columns that there are, rising by table and column.
fn verdicts_in(words: &[u32; VERDICT_WORDS]) -> Vec<Verdict> {
    let there = words.iter().enumerate().filter(|&(_, &word)| word != 0);
    let verdict = |(place, &word): (usize, &u32)| {
        let column = Column::new((place / Row::CELLS) as u8, (place % Row::CELLS) as u8);
        Verdict::from_word(column, word)
    };
    there.map(verdict).collect()
}

impl Design {
    /// What the design decides of each column, rising by table and column, whatever rows a
    /// desk of it will have. No desk is needed: [`Builder::design`](crate::Builder::design)
    /// has the parts that were put together so far.
    ///
    /// Refused: parts that no script gives (12). [`Builder::open`](crate::Builder::open) says
    /// which one isn't right.
    ///
    /// ```
    /// use wurzsige::{Builder, Cause, Named::Plain};
    ///
    /// let mut builder = Builder::new();
    /// let [ward] = builder.table("wards", [Plain("ward")]);
    /// assert!(builder.design().verdicts()?[0].never());
    /// builder.filling(ward, 1..=99);
    /// assert!(builder.design().verdicts()?[0].fetches);
    ///
    /// builder.filling(ward, 1..=99);
    /// let refusal = builder.design().verdicts().unwrap_err();
    /// assert_eq!(refusal.cause, Cause::Unlawful);
    /// # Ok::<(), wurzsige::Refusal>(())
    /// ```
    pub fn verdicts(&self) -> Result<Vec<Verdict>, Refusal> {
        let words = wurzsige_sys::verdicts(&words_of(self));
        let refusal = |cause| Refusal {
            cause: Cause::with_number(cause).expect("a cause that there is"),
            place: None,
            operand: None,
        };
        Ok(verdicts_in(&words.map_err(refusal)?))
    }
}

impl Desk {
    /// The verdicts of its design.
    ///
    /// ```
    /// use wurzsige::Desk;
    ///
    /// let desk = Desk::open(&[0x01, 2, 1, 0x05])?;
    /// assert_eq!(desk.verdicts(), desk.design().verdicts()?);
    /// # Ok::<(), wurzsige::Refusal>(())
    /// ```
    pub fn verdicts(&self) -> Vec<Verdict> {
        let verdicts = self.design().verdicts();
        verdicts.unwrap_or_else(|refusal| unreachable!("a desk's design: {refusal}"))
    }
}
