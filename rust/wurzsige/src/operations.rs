//! What changes a desk.

use alloc::vec::Vec;

use crate::answer::Answer;
use crate::answers::{Answered, Changed, Dropped, Referred, Totalled, typed};
use crate::command::Command;
use crate::desk::{Desk, WORDS};
use crate::fault::{self, Fault, explained};
use crate::operand::{Query, Range, Row, Value};
use crate::refusal::{Cause, Refusal};

impl Desk {
    /// Holds a value of a filling from now on, and caches its rows with all that the
    /// constraints demand.
    ///
    /// Refused: a filling that isn't there (5), the number 0 (9), a candidate that the
    /// named desk doesn't hold yet while it holds 16 values (8).
    ///
    /// ```
    /// use wurzsige::{Builder, Named::Plain, Referred, Row};
    ///
    /// let mut builder = Builder::new();
    /// let [ward] = builder.table("wards", [Plain("ward")]);
    /// let wards = builder.filling(ward, 1..=99);
    /// builder.row(Row::new(0, [3]));
    /// let mut desk = builder.open()?;
    /// assert_eq!(desk.refer(wards, 3)?, Referred::Loaded { rows: 1, rounds: 0 });
    /// # Ok::<(), Box<dyn std::error::Error>>(())
    /// ```
    pub fn refer(&mut self, filling: u8, value: impl Into<Value>) -> Result<Referred, Refusal> {
        let value = value.into();
        let fault = |desk: &Desk| desk.design().refer_fault(filling, value);
        self.ask(&Command::refer(filling, value), fault)
    }

    /// Stops holding a value. Rows go that nothing else demands.
    ///
    /// Refused: a filling that isn't there (5), the number 0 (9), a value that the named
    /// desk doesn't hold (10).
    ///
    /// ```
    /// use wurzsige::{Builder, Dropped, Named::Plain, Row};
    ///
    /// let mut builder = Builder::new();
    /// let [ward] = builder.table("wards", [Plain("ward")]);
    /// builder.filling(ward, 1..=99);
    /// builder.row(Row::new(0, [3]));
    /// let mut desk = builder.open()?;
    /// desk.refer(0, 3)?;
    /// assert_eq!(desk.drop_value(0, 3)?, Dropped { rows: 1 });
    /// let refusal = desk.drop_value(0, 3).unwrap_err();
    /// assert!(refusal.to_string().ends_with("does not hold: value 3"));
    /// # Ok::<(), Box<dyn std::error::Error>>(())
    /// ```
    pub fn drop_value(&mut self, filling: u8, value: impl Into<Value>) -> Result<Dropped, Refusal> {
        let value = value.into();
        let fault = |desk: &Desk| {
            let held = desk.holds(filling, value);
            desk.design().drop_fault(filling, value, held)
        };
        self.ask(&Command::drop(filling, value), fault)
    }

    /// Asks for every fitting list of rows. A value without a ground is referred first,
    /// if the column has a filling, the value is a candidate and the desk has room for
    /// it; it stays held then.
    ///
    /// Up to [`Desk::MOST_WORDS`] words are lent for the lists, which have a word for
    /// each of their rows; [`Desk::query_within`] sets another limit.
    ///
    /// Refused: an operand that names nothing, or more than four joins (5), the number 0
    /// (9), lists that need more words (11).
    ///
    /// ```
    /// use wurzsige::{Answered, Builder, Named::Plain, Query, Row};
    ///
    /// let mut builder = Builder::new();
    /// let [ward] = builder.table("wards", [Plain("ward")]);
    /// builder.filling(ward, 1..=99);
    /// builder.row(Row::new(0, [3]));
    /// let mut desk = builder.open()?;
    /// let Answered::Lists(lists) = desk.query(&Query::new(ward, 3))? else {
    ///     panic!("ask the backend");
    /// };
    /// assert_eq!(lists[0], [0]);
    /// # Ok::<(), Box<dyn std::error::Error>>(())
    /// ```
    pub fn query(&mut self, query: &Query) -> Result<Answered, Refusal> {
        self.query_within(query, Desk::MOST_WORDS)
    }

    /// The same with a limit for the words that are lent. A query with four joins can
    /// have 2^45 lists, so there has to be one.
    ///
    /// The first 4,096 words are lent at once. If they aren't enough, the desk is asked
    /// how many are needed ([`Desk::sizes`]), and the query is put once more with so
    /// many, unless they are more than `most_words` or can't be had.
    ///
    /// ```
    /// use wurzsige::{Builder, Cause, Named::Plain, Query, Row};
    ///
    /// let mut builder = Builder::new();
    /// let [ward] = builder.table("wards", [Plain("ward")]);
    /// builder.filling(ward, 1..=99);
    /// builder.row(Row::new(0, [3]));
    /// builder.row(Row::new(0, [3]));
    /// let mut desk = builder.open()?;
    /// let query = Query::new(ward, 3);
    /// assert_eq!(desk.query_within(&query, 1).unwrap_err().cause, Cause::AnswerTooLong);
    /// assert!(desk.query_within(&query, 2).is_ok());
    /// # Ok::<(), Box<dyn std::error::Error>>(())
    /// ```
    pub fn query_within(&mut self, query: &Query, most_words: usize) -> Result<Answered, Refusal> {
        let answer = self.list_within(query, most_words);
        let fault = |refusal| explained(refusal, self.design().query_fault(query));
        typed(answer).map_err(fault)
    }

    /// Asks for the sum of a cell over all lists of a query, however many they are: the
    /// cell in a column of the row at a position. Blanks count 0. A value without a
    /// ground is referred first, as for a query.
    ///
    /// Refused: as for a query, and a position or column that isn't there (5), and a sum
    /// above 2^64 - 1 (13); but never for its lists.
    ///
    /// ```
    /// use wurzsige::{Builder, Named::Plain, Query, Row, Totalled};
    ///
    /// let mut builder = Builder::new();
    /// let [ward, beds] = builder.table("wards", [Plain("ward"), Plain("beds")]);
    /// builder.filling(ward, 1..=99);
    /// builder.row(Row::new(0, [3, 12]));
    /// builder.row(Row::new(0, [3, 8]));
    /// let mut desk = builder.open()?;
    /// let total = desk.total(&Query::new(ward, 3), 0, beds.column)?;
    /// assert_eq!(total, Totalled::Total(20));
    /// # Ok::<(), Box<dyn std::error::Error>>(())
    /// ```
    pub fn total(&mut self, query: &Query, position: u8, column: u8) -> Result<Totalled, Refusal> {
        let fault = |desk: &Desk| desk.design().total_fault(query, position, column);
        self.ask(&Command::total(query, position, column), fault)
    }

    /// Names the desk, from 0 to 3, for what follows.
    ///
    /// Refused: a desk above 3 (5).
    ///
    /// ```
    /// use wurzsige::{Cause, Desk};
    ///
    /// let mut desk = Desk::open(&[0x05])?;
    /// desk.name_desk(2)?;
    /// assert_eq!(desk.name_desk(4).unwrap_err().cause, Cause::WrongOperand);
    /// assert_eq!(desk.named_desk(), 2);
    /// # Ok::<(), wurzsige::Refusal>(())
    /// ```
    pub fn name_desk(&mut self, desk: u8) -> Result<(), Refusal> {
        match self.answer(&Command::desk(desk)) {
            Answer::Refused(refusal) => Err(explained(refusal, fault::desk(desk))),
            _ => Ok(()),
        }
    }

    /// Holds a range of a filling's values at issue 0. Ranges of the named desk that
    /// overlap or touch become one.
    ///
    /// Refused: a filling that isn't there, low 0 or above high (5), a range that would
    /// leave the desk more than 8 (8).
    ///
    /// ```
    /// use wurzsige::{Builder, Named::Plain, Range, Referred, Row};
    ///
    /// let mut builder = Builder::new();
    /// let [ward] = builder.table("wards", [Plain("ward")]);
    /// builder.filling(ward, 1..=99);
    /// builder.row(Row::new(0, [3]));
    /// builder.row(Row::new(0, [4]));
    /// let mut desk = builder.open()?;
    /// let range = Range { filling: 0, low: 1, high: 9 };
    /// assert_eq!(desk.hold_range(range)?, Referred::Loaded { rows: 2, rounds: 0 });
    /// # Ok::<(), Box<dyn std::error::Error>>(())
    /// ```
    pub fn hold_range(&mut self, range: Range) -> Result<Referred, Refusal> {
        let fault = |desk: &Desk| desk.design().hold_fault(range);
        self.ask(&Command::hold(range), fault)
    }

    /// Stops holding a range, which has to be exactly one that is held.
    ///
    /// Refused: a filling that isn't there, low 0 or above high (5), another range than
    /// the named desk holds (10).
    ///
    /// ```
    /// use wurzsige::{Builder, Cause, Named::Plain, Range};
    ///
    /// let mut builder = Builder::new();
    /// let [ward] = builder.table("wards", [Plain("ward")]);
    /// builder.filling(ward, 1..=99);
    /// let mut desk = builder.open()?;
    /// let range = Range { filling: 0, low: 1, high: 9 };
    /// desk.hold_range(range)?;
    /// let part = Range { high: 8, ..range };
    /// assert_eq!(desk.release_range(part).unwrap_err().cause, Cause::NotHeld);
    /// assert_eq!(desk.release_range(range)?.rows, 0);
    /// # Ok::<(), Box<dyn std::error::Error>>(())
    /// ```
    pub fn release_range(&mut self, range: Range) -> Result<Dropped, Refusal> {
        let fault = |desk: &Desk| {
            let held = desk.ranges(desk.named_desk()).contains(&range);
            desk.design().release_fault(range, held)
        };
        self.ask(&Command::release(range), fault)
    }

    /// Puts a backend row in, at a free number below 512.
    ///
    /// Refused: a number that is taken or above 511, a table that isn't there, a cell
    /// past its columns, an issue on a blank (5), a value other than blank twice in a
    /// unique column (6).
    ///
    /// ```
    /// use wurzsige::{Builder, Changed, Named::Plain, Operand, Row};
    ///
    /// let mut builder = Builder::new();
    /// let [ward] = builder.table("wards", [Plain("ward")]);
    /// builder.filling(ward, 1..=99);
    /// let mut desk = builder.open()?;
    /// desk.refer(0, 3)?;
    /// // The row is demanded by the held ward.
    /// assert_eq!(desk.put_row(8, &Row::new(0, [3]))?, Changed { came: 1, went: 0 });
    /// let refusal = desk.put_row(8, &Row::new(0, [4])).unwrap_err();
    /// assert_eq!(refusal.operand, Some(Operand::Row(8)));
    /// # Ok::<(), Box<dyn std::error::Error>>(())
    /// ```
    pub fn put_row(&mut self, number: u16, row: &Row) -> Result<Changed, Refusal> {
        let fault = |desk: &Desk| desk.put_fault(number, row);
        self.ask(&Command::put(number, row), fault)
    }

    /// Removes a backend row. Its number is free then.
    ///
    /// Refused: a number without a row (5).
    ///
    /// ```
    /// use wurzsige::{Builder, Changed, Named::Plain, Row};
    ///
    /// let mut builder = Builder::new();
    /// builder.table("wards", [Plain("ward")]);
    /// builder.row(Row::new(0, [3]));
    /// let mut desk = builder.open()?;
    /// assert_eq!(desk.remove_row(0)?, Changed { came: 0, went: 0 });
    /// assert!(desk.row(0).is_none());
    /// # Ok::<(), Box<dyn std::error::Error>>(())
    /// ```
    pub fn remove_row(&mut self, number: u16) -> Result<Changed, Refusal> {
        let fault = |desk: &Desk| fault::number_of_row(number, desk.row(number).is_some());
        self.ask(&Command::remove(number), fault)
    }

    /// Whether the named desk holds a value singly.
    fn holds(&self, filling: u8, value: Value) -> bool {
        let desk = self.named_desk();
        let mut held = self.held().into_iter();
        held.any(|held| (held.desk, held.filling, held.value) == (desk, filling, value))
    }

    fn put_fault(&self, number: u16, row: &Row) -> Option<Fault> {
        let taken = self.row(number).is_some();
        let others = self.rows().map(|(_, row)| row);
        fault::number_for_row(number, taken).or_else(|| self.design().row_fault(row, others))
    }

    /// The lists of a query, in words that are at hand or, if they are too few, in as many
    /// as it needs.
    fn list_within(&mut self, query: &Query, most_words: usize) -> Answer {
        let (command, positions) = (Command::query(query), query.positions());
        let answer = self.list(&command, positions, most_words);
        if most_words <= WORDS || !is_too_long(&answer) {
            return answer;
        }
        let needed = usize::try_from(self.sizes(command.bytes(), 0).words);
        let needed = needed.ok().filter(|&needed| needed <= most_words);
        match needed.and_then(zeros) {
            Some(mut words) => self.list_in(&command, positions, &mut words),
            None => answer,
        }
    }
}

fn is_too_long(answer: &Answer) -> bool {
    matches!(answer, Answer::Refused(refusal) if refusal.cause == Cause::AnswerTooLong)
}

/// So many zeros, if they can be had.
fn zeros(count: usize) -> Option<Vec<u32>> {
    let mut zeros = Vec::new();
    zeros.try_reserve_exact(count).ok()?;
    zeros.resize(count, 0);
    Some(zeros)
}
