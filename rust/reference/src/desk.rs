//! The operations: loads, drops, probes, rows that come and go, and how a question
//! refers its value first (queries and totals are in [`crate::query`], the reports on
//! designs in [`crate::even`] and [`crate::knot`], what would open a probe in
//! [`crate::opener`], and why a row is cached in [`crate::reason`]).

use crate::design::Design;
use crate::held::Holding;
use crate::refusal::Cause;
use crate::script::{Column, Command, Pair, Probe, Range, Row, Value};

/// The bytes for text that the program lends.
const TEXT_BYTES: usize = 16_384;

/// A design at work: what it holds and which rows are cached for that.
#[derive(Clone, Debug)]
pub struct Desk {
    pub(crate) design: Design,
    pub(crate) cached: Vec<bool>,
    held: Holding,
    pub(crate) answer_words: usize,
    pub(crate) text_bytes: usize,
    /// What the report on knots says, once it has been asked for.
    knot: Option<Answer>,
}

/// What an operation answers.
#[derive(Clone, Debug, PartialEq, Eq)]
pub enum Answer {
    /// A load, with the rows added and the later rounds that added a row.
    Loaded {
        /// Rows added.
        rows: usize,
        /// Later rounds that added a row.
        rounds: usize,
    },
    /// The value is held already.
    Held,
    /// The value is none of the filling's candidates.
    NoCandidate,
    /// A drop, with the rows that went.
    Dropped {
        /// Rows that went.
        rows: usize,
    },
    /// A probe's yes.
    Ground {
        /// Its ground.
        ground: u8,
        /// The cached rows that have the value in the column.
        rows: usize,
    },
    /// The backend has to be asked.
    Sent,
    /// A query's lists of row numbers.
    Lists(Vec<Vec<usize>>),
    /// The design is even.
    Even,
    /// The design is uneven, by two constraints or one.
    Uneven {
        /// The constraint that ends at a table.
        i: usize,
        /// The constraint that starts at another column of it.
        j: usize,
    },
    /// The sum of a cell over a query's lists.
    Total(u64),
    /// The fewest constraints that are uneven without the others.
    Knot(Vec<usize>),
    /// The desk that is named from now on.
    Desk(usize),
    /// What a row that came or went did to the cache.
    Rows {
        /// Rows that came.
        came: usize,
        /// Rows that went.
        went: usize,
    },
    /// Why a row is cached.
    Reason(String),
    /// The row isn't cached.
    Absent,
    /// The probe has a ground already.
    Open,
    /// The pair whose reference would give it one.
    Opener(Pair),
    /// No reference would.
    NoOpener,
}

impl Desk {
    /// A desk that holds nothing and lends queries `answer_words` words, and as many
    /// bytes for text as the program does.
    pub fn new(design: Design, answer_words: usize) -> Desk {
        Desk {
            cached: vec![false; design.rows.len()],
            design,
            held: Holding::default(),
            answer_words,
            text_bytes: TEXT_BYTES,
            knot: None,
        }
    }

    /// The desk with another number of bytes for text.
    pub fn lending_text(self, text_bytes: usize) -> Desk {
        Desk { text_bytes, ..self }
    }

    /// The desk with other numbers of answer words and of bytes for text.
    pub fn lending(self, answer_words: usize, text_bytes: usize) -> Desk {
        Desk {
            answer_words,
            text_bytes,
            ..self
        }
    }

    /// The desk with other held values and ranges, and the smallest set of rows for
    /// them cached.
    pub fn holding(self, held: Holding) -> Desk {
        let mut desk = Desk { held, ..self };
        desk.reload();
        desk
    }

    /// For each number of a row up to the last, whether the row is cached.
    pub fn cached(&self) -> &[bool] {
        &self.cached
    }

    /// The design.
    pub fn design(&self) -> &Design {
        &self.design
    }

    /// What is held.
    pub fn held(&self) -> &Holding {
        &self.held
    }

    /// Carries out one command found after END.
    pub fn perform(&mut self, command: &Command) -> Result<Answer, Cause> {
        match command {
            Command::Refer(pair) => self.refer(*pair),
            Command::Drop(pair) => self.drop(*pair),
            Command::Probe(probe) => self.probe(*probe),
            Command::Query(query) => self.query(query),
            Command::Even => Ok(self.design.evenness()),
            Command::Total(total) => self.total(total),
            Command::Knot => Ok(self.knot()),
            Command::Reason(row) => self.reason(*row),
            Command::Hold(range) => self.hold_range(*range),
            Command::Release(range) => self.release_range(*range),
            Command::Put { number, row } => {
                self.design.put_row(*number, *row)?;
                Ok(self.recache())
            }
            Command::Take(number) => {
                self.design.take_row(*number)?;
                Ok(self.recache())
            }
            Command::Opener(probe) => self.opener(*probe),
            Command::Desk(desk) => self.held.name(*desk).map(|()| Answer::Desk(*desk)),
            _ => Err(Cause::OutOfOrder),
        }
    }

    /// Puts in a row at a free number, however large: what 0x1D would be over a backend of
    /// any number of rows. All other operations have no limit on rows.
    pub fn put_anywhere(&mut self, number: usize, row: Row) -> Result<Answer, Cause> {
        self.design.put_row_anywhere(number, row)?;
        Ok(self.recache())
    }

    /// The report on knots, which is worked out once: operations leave the
    /// constraints as they are.
    fn knot(&mut self) -> Answer {
        let design = &self.design;
        self.knot.get_or_insert_with(|| design.knot()).clone()
    }

    fn refer(&mut self, pair: Pair) -> Result<Answer, Cause> {
        self.check_pair(pair)?;
        if !self.design.is_candidate(pair) {
            return Ok(Answer::NoCandidate);
        }
        if self.held.owns(pair) {
            return Ok(Answer::Held);
        }
        Cause::NoPlaceFree.unless(self.held.has_room())?;
        let before = self.cached_rows();
        let rounds = self.hold(pair);
        let rows = self.cached_rows() - before;
        Ok(Answer::Loaded { rows, rounds })
    }

    fn drop(&mut self, pair: Pair) -> Result<Answer, Cause> {
        self.check_pair(pair)?;
        self.held.remove(pair)?;
        let (_, rows) = self.reload();
        Ok(Answer::Dropped { rows })
    }

    fn hold_range(&mut self, range: Range) -> Result<Answer, Cause> {
        self.check_range(range)?;
        if !self.design.are_candidates(range) {
            return Ok(Answer::NoCandidate);
        }
        if self.held.covers(range) {
            return Ok(Answer::Held);
        }
        self.held.add_range(range)?;
        let before = self.cached_rows();
        let rounds = self.load(|pair| range.has(pair));
        let rows = self.cached_rows() - before;
        Ok(Answer::Loaded { rows, rounds })
    }

    fn release_range(&mut self, range: Range) -> Result<Answer, Cause> {
        self.check_range(range)?;
        self.held.remove_range(range)?;
        let (_, rows) = self.reload();
        Ok(Answer::Dropped { rows })
    }

    /// Caches the smallest set for the tables as they now are.
    fn recache(&mut self) -> Answer {
        self.cached.resize(self.design.rows.len(), false);
        let (came, went) = self.reload();
        Answer::Rows { came, went }
    }

    /// Caches what is held now and nothing else. Gives how many rows came and how many
    /// went.
    fn reload(&mut self) -> (usize, usize) {
        let before = self.cached.clone();
        self.cached.fill(false);
        let held = self.held.clone();
        self.load(|pair| held.holds(pair));
        let both = before.iter().zip(&self.cached);
        let came = both.clone().filter(|(&before, &now)| now && !before);
        let went = both.clone().filter(|(&before, &now)| before && !now);
        (came.count(), went.count())
    }

    pub(crate) fn probe(&self, probe: Probe) -> Result<Answer, Cause> {
        let Probe { column, value } = probe;
        Cause::WrongOperand.unless(self.design.has(column))?;
        Cause::ValueZero.unless(value.number != 0)?;
        Ok(self.search(column, value))
    }

    /// Answers a question about a value of a column, which has been checked. If
    /// it has no ground, the value is referred first, so that it has one; if it
    /// can't be referred, the question is sent. With a refusal the reference is
    /// undone (document 02, Req 02).
    pub(crate) fn answer_fetching(
        &mut self,
        column: Column,
        value: Value,
        answer: impl Fn(&Desk) -> Result<Answer, Cause>,
    ) -> Result<Answer, Cause> {
        if self.search(column, value) != Answer::Sent {
            return answer(self);
        }
        let Some(pair) = self.pair_to_refer(column, value) else {
            return Ok(Answer::Sent);
        };
        let before = (self.held.clone(), self.cached.clone());
        self.hold(pair);
        let answered = answer(self);
        if answered.is_err() {
            (self.held, self.cached) = before;
        }
        answered
    }

    /// The pair that a question about a value refers, if the column has a
    /// filling, the value is a candidate and the desk holds fewer than 16.
    fn pair_to_refer(&self, column: Column, value: Value) -> Option<Pair> {
        let mut fillings = self.design.fillings.iter();
        let filling = fillings.position(|filling| filling.column == column)?;
        let pair = Pair { filling, value };
        (self.design.is_candidate(pair) && self.held.has_room()).then_some(pair)
    }

    fn check_pair(&self, pair: Pair) -> Result<(), Cause> {
        Cause::WrongOperand.unless(pair.filling < self.design.fillings.len())?;
        Cause::ValueZero.unless(pair.value.number != 0)
    }

    fn check_range(&self, range: Range) -> Result<(), Cause> {
        Cause::WrongOperand.unless(range.filling < self.design.fillings.len())?;
        Cause::WrongOperand.unless(0 < range.low && range.low <= range.high)
    }

    fn cached_rows(&self) -> usize {
        self.cached.iter().filter(|&&cached| cached).count()
    }

    /// Holds a value from now on, and gives the number of later rounds that
    /// added a row.
    pub(crate) fn hold(&mut self, pair: Pair) -> usize {
        self.held.add(pair);
        self.load(|other| other == pair)
    }

    /// Caches what the pairs that pass a test demand, round by round, and gives the
    /// number of later rounds that added a row.
    fn load(&mut self, test: impl Fn(Pair) -> bool) -> usize {
        let mut added = self.uncached(|design, row| design.pairs_of(row).any(&test));
        let mut rounds = 0;
        loop {
            for &row in &added {
                self.cached[row] = true;
            }
            added = self.uncached(|design, row| is_demanded(design, &added, row));
            if added.is_empty() {
                return rounds;
            }
            rounds += 1;
        }
    }

    /// The uncached rows that pass a test, in rising order.
    fn uncached(&self, test: impl Fn(&Design, usize) -> bool) -> Vec<usize> {
        (0..self.cached.len())
            .filter(|&row| !self.cached[row] && test(&self.design, row))
            .collect()
    }

    /// Searches the cached rows: a yes by the lowest ground on which the value is
    /// known to be complete in the column, or "sent".
    pub(crate) fn search(&self, column: Column, value: Value) -> Answer {
        let ground = if self.is_held(column, value) {
            1
        } else if self.is_demanded_value(column, value) {
            2
        } else if self.design.is_unique(column) && self.is_cached(column, value) {
            3
        } else {
            return Answer::Sent;
        };
        let rows = self.cached_rows_with(column, value);
        Answer::Ground { ground, rows }
    }

    fn is_held(&self, column: Column, value: Value) -> bool {
        let mut fillings = self.design.fillings.iter();
        let filling = fillings.position(|filling| filling.column == column);
        filling.is_some_and(|filling| self.held.holds(Pair { filling, value }))
    }

    fn is_demanded_value(&self, column: Column, value: Value) -> bool {
        self.design.constraints.iter().any(|constraint| {
            constraint.target == column && self.is_cached(constraint.source, value)
        })
    }

    fn is_cached(&self, column: Column, value: Value) -> bool {
        self.cached_rows_with(column, value) > 0
    }

    /// How many cached rows have the value in the column.
    fn cached_rows_with(&self, column: Column, value: Value) -> usize {
        let has_value = |row: &usize| self.cached[*row] && self.design.equals(*row, column, value);
        (0..self.cached.len()).filter(has_value).count()
    }
}

/// Whether a constraint demands the row of one of the rows just added.
fn is_demanded(design: &Design, added: &[usize], row: usize) -> bool {
    design.constraints.iter().any(|&constraint| {
        added
            .iter()
            .any(|&source| design.demands(constraint, source, row))
    })
}
