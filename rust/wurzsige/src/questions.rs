//! What a desk can be asked without being changed.

use alloc::vec::Vec;

use wurzsige_sys::{FREE, ROWS};

use crate::answers::{Evenness, Knot, Opener, Probed, Reasoned};
use crate::command::Command;
use crate::desk::Desk;
use crate::fault;
use crate::operand::{Column, Range, Row, Value};
use crate::parts::{Counts, Design, Held, design_in, held_in, ranges_in, row_in};
use crate::refusal::Refusal;

impl Desk {
    /// How many tables, constraints and fillings there are, and how many rows there are
    /// now.
    ///
    /// ```
    /// use wurzsige::{Builder, Named::Plain, Row};
    ///
    /// let mut builder = Builder::new();
    /// builder.table("wards", [Plain("ward")]);
    /// builder.row(Row::new(0, [3]));
    /// assert_eq!(builder.open()?.counts().rows, 1);
    /// # Ok::<(), wurzsige::DesignRefusal>(())
    /// ```
    pub fn counts(&self) -> Counts {
        self.look(|memory| {
            let count = |place: usize| memory.design()[place] as usize;
            Counts {
                tables: count(0),
                constraints: count(1),
                fillings: count(2),
                rows: memory.tables().iter().filter(|&&t| t != FREE).count(),
            }
        })
    }

    /// The tables, constraints and fillings.
    ///
    /// ```
    /// use wurzsige::{Builder, Filling, Named::Plain};
    ///
    /// let mut builder = Builder::new();
    /// let [ward] = builder.table("wards", [Plain("ward")]);
    /// builder.filling(ward, 1..=99);
    /// let design = builder.open()?.design();
    /// assert_eq!(design.tables[0].columns, 1);
    /// assert_eq!(design.fillings, [Filling { column: ward, low: 1, high: 99 }]);
    /// # Ok::<(), wurzsige::DesignRefusal>(())
    /// ```
    pub fn design(&self) -> Design {
        self.look(design_in)
    }

    /// The backend row with a number, if the number isn't free.
    ///
    /// ```
    /// use wurzsige::{Builder, Named::Plain, Row};
    ///
    /// let mut builder = Builder::new();
    /// builder.table("subjects", [Plain("number"), Plain("ward")]);
    /// builder.row(Row::new(0, [(7, 1), (3, 0)]));
    /// let desk = builder.open()?;
    /// assert_eq!(desk.row(0), Some(Row::new(0, [(7, 1), (3, 0)])));
    /// assert_eq!(desk.row(1), None);
    /// # Ok::<(), wurzsige::DesignRefusal>(())
    /// ```
    pub fn row(&self, number: u16) -> Option<Row> {
        self.look(|memory| row_in(memory, number))
    }

    /// All backend rows with their numbers, rising.
    ///
    /// ```
    /// use wurzsige::{Builder, Named::Plain, Row};
    ///
    /// let mut builder = Builder::new();
    /// builder.table("wards", [Plain("ward")]);
    /// for ward in [3, 4, 5] {
    ///     builder.row(Row::new(0, [ward]));
    /// }
    /// let mut desk = builder.open()?;
    /// desk.remove_row(1)?;
    /// let numbers: Vec<u16> = desk.rows().map(|(number, _)| number).collect();
    /// assert_eq!(numbers, [0, 2]);
    /// # Ok::<(), Box<dyn std::error::Error>>(())
    /// ```
    pub fn rows(&self) -> impl Iterator<Item = (u16, Row)> + Clone + '_ {
        numbers().filter_map(|number| Some((number, self.row(number)?)))
    }

    /// Whether the row with a number is cached.
    ///
    /// ```
    /// use wurzsige::{Builder, Named::Plain, Row};
    ///
    /// let mut builder = Builder::new();
    /// let [ward] = builder.table("wards", [Plain("ward")]);
    /// builder.filling(ward, 1..=99);
    /// builder.row(Row::new(0, [3]));
    /// let mut desk = builder.open()?;
    /// assert!(!desk.is_cached(0));
    /// desk.refer(0, 3)?;
    /// assert!(desk.is_cached(0) && !desk.is_cached(600));
    /// # Ok::<(), Box<dyn std::error::Error>>(())
    /// ```
    pub fn is_cached(&self, row: u16) -> bool {
        self.look(|memory| memory.marks().get(usize::from(row)) == Some(&1))
    }

    /// The numbers of all cached rows, rising.
    ///
    /// ```
    /// use wurzsige::{Builder, Named::Plain, Row};
    ///
    /// let mut builder = Builder::new();
    /// let [ward] = builder.table("wards", [Plain("ward")]);
    /// builder.filling(ward, 1..=99);
    /// for ward in [3, 4, 3] {
    ///     builder.row(Row::new(0, [ward]));
    /// }
    /// let mut desk = builder.open()?;
    /// desk.refer(0, 3)?;
    /// assert_eq!(desk.cached().collect::<Vec<u16>>(), [0, 2]);
    /// # Ok::<(), Box<dyn std::error::Error>>(())
    /// ```
    pub fn cached(&self) -> impl Iterator<Item = u16> + Clone + '_ {
        numbers().filter(|&number| self.is_cached(number))
    }

    /// The desk that is named, from 0 to 3. What is loaded and dropped is for this desk.
    ///
    /// ```
    /// use wurzsige::Desk;
    ///
    /// let mut desk = Desk::open(&[0x05])?;
    /// assert_eq!(desk.named_desk(), 0);
    /// desk.name_desk(3)?;
    /// assert_eq!(desk.named_desk(), 3);
    /// # Ok::<(), wurzsige::Refusal>(())
    /// ```
    pub fn named_desk(&self) -> u8 {
        self.look(|memory| memory.held()[0] as u8)
    }

    /// The values that the four desks hold, in order of reference.
    ///
    /// ```
    /// use wurzsige::{Builder, Named::Plain};
    ///
    /// let mut builder = Builder::new();
    /// let [ward] = builder.table("wards", [Plain("ward")]);
    /// builder.filling(ward, 1..=99);
    /// let mut desk = builder.open()?;
    /// desk.refer(0, 4)?;
    /// desk.refer(0, (3, 1))?;
    /// let values: Vec<String> = desk.held().iter().map(|held| held.value.to_string()).collect();
    /// assert_eq!(values, ["4", "3#1"]);
    /// # Ok::<(), Box<dyn std::error::Error>>(())
    /// ```
    pub fn held(&self) -> Vec<Held> {
        self.look(held_in)
    }

    /// The ranges that one of the four desks holds, rising by filling, then low; none of a
    /// desk above 3.
    ///
    /// ```
    /// use wurzsige::{Builder, Named::Plain, Range};
    ///
    /// let mut builder = Builder::new();
    /// let [ward] = builder.table("wards", [Plain("ward")]);
    /// builder.filling(ward, 1..=99);
    /// let mut desk = builder.open()?;
    /// desk.hold_range(Range { filling: 0, low: 10, high: 19 })?;
    /// desk.hold_range(Range { filling: 0, low: 20, high: 29 })?;
    /// assert_eq!(desk.ranges(0), [Range { filling: 0, low: 10, high: 29 }]);
    /// assert!(desk.ranges(1).is_empty());
    /// # Ok::<(), Box<dyn std::error::Error>>(())
    /// ```
    pub fn ranges(&self, desk: u8) -> Vec<Range> {
        self.look(|memory| ranges_in(memory, desk))
    }

    /// Asks whether a value is complete in a column.
    ///
    /// Refused: a column that isn't there (5), the number 0 (9).
    ///
    /// ```
    /// use wurzsige::{Builder, Ground, Named::Unique, Probed, Row};
    ///
    /// let mut builder = Builder::new();
    /// let [ward] = builder.table("wards", [Unique("ward")]);
    /// let desk = builder.open()?;
    /// assert_eq!(desk.probe(ward, 3)?, Probed::Sent);
    /// # Ok::<(), Box<dyn std::error::Error>>(())
    /// ```
    pub fn probe(&self, column: Column, value: impl Into<Value>) -> Result<Probed, Refusal> {
        let value = value.into();
        let fault = |desk: &Desk| desk.design().probe_fault(column, value);
        self.ask(&Command::probe(column, value), fault)
    }

    /// Asks for the value whose reference would give a probe a ground. Whether a desk
    /// has room for it isn't asked.
    ///
    /// Refused: as for a probe.
    ///
    /// ```
    /// use wurzsige::{Builder, Named::Plain, Opener};
    ///
    /// let mut builder = Builder::new();
    /// let [ward] = builder.table("wards", [Plain("ward")]);
    /// builder.filling(ward, 1..=99);
    /// let desk = builder.open()?;
    /// assert_eq!(desk.opener(ward, 3)?, Opener::Value { filling: 0, value: 3.into() });
    /// # Ok::<(), Box<dyn std::error::Error>>(())
    /// ```
    pub fn opener(&self, column: Column, value: impl Into<Value>) -> Result<Opener, Refusal> {
        let value = value.into();
        let fault = |desk: &Desk| desk.design().probe_fault(column, value);
        self.ask(&Command::opener(column, value), fault)
    }

    /// Asks whether the design is even.
    ///
    /// ```
    /// use wurzsige::{Builder, Evenness};
    ///
    /// assert_eq!(Builder::new().open()?.evenness(), Evenness::Even);
    /// # Ok::<(), wurzsige::DesignRefusal>(())
    /// ```
    pub fn evenness(&self) -> Evenness {
        never_refused(self.ask(&Command::even(), |_| None))
    }

    /// Asks for the smallest knot.
    ///
    /// ```
    /// use wurzsige::{Builder, Knot};
    ///
    /// assert_eq!(Builder::new().open()?.knot(), Knot::Even);
    /// # Ok::<(), wurzsige::DesignRefusal>(())
    /// ```
    pub fn knot(&self) -> Knot {
        never_refused(self.ask(&Command::knot(), |_| None))
    }

    /// Asks why a row is cached. As much text is lent as the longest reason needs.
    ///
    /// Refused: a number without a row (5).
    ///
    /// ```
    /// use wurzsige::{Builder, Named::Plain, Reasoned, Row};
    ///
    /// let mut builder = Builder::new();
    /// let [ward] = builder.table("wards", [Plain("ward")]);
    /// builder.filling(ward, 1..=99);
    /// builder.row(Row::new(0, [3]));
    /// let mut desk = builder.open()?;
    /// desk.refer(0, 3)?;
    /// let Reasoned::Reason(reason) = desk.reason(0)? else {
    ///     panic!("it is cached");
    /// };
    /// assert_eq!(reason.to_string(), "row 0 by value 3 of filling 0");
    /// # Ok::<(), Box<dyn std::error::Error>>(())
    /// ```
    pub fn reason(&self, row: u16) -> Result<Reasoned, Refusal> {
        let fault = |desk: &Desk| fault::number_of_row(row, desk.row(row).is_some());
        self.ask_in_words(&Command::reason(row), fault)
    }
}

/// The numbers that rows can have.
fn numbers() -> core::ops::Range<u16> {
    0..ROWS as u16
}

/// The answer of a report that every desk answers.
fn never_refused<T>(answer: Result<T, Refusal>) -> T {
    answer.unwrap_or_else(|refusal| unreachable!("a report without operands: {refusal}"))
}
