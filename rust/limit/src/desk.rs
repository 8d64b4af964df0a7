//! The desk: a design at work, and the commands of its script.

use std::hint::black_box;

use crate::cache::Cache;
use crate::catalog::Catalog;
use crate::design::{column_at, u16_at, value_at, width, Design, Refusal, Value};
use crate::even::Evenness;
use crate::knot::Knot;
use crate::opener::Opening;
use crate::query::Listing;
use crate::ranges::range_at;
use crate::reason::Reasons;

/// What a command answers.
#[derive(Clone, Copy, Debug, PartialEq, Eq)]
pub enum Answer {
    /// A load.
    Loaded {
        /// Rows added.
        rows: usize,
        /// Later rounds that added a row.
        rounds: usize,
    },
    /// The value is held already.
    Held,
    /// The value is none of the candidates.
    NoCandidate,
    /// Rows that went.
    Dropped(usize),
    /// A probe's yes.
    Ground {
        /// Its ground.
        ground: u8,
        /// The cached rows that have the value in the column.
        rows: usize,
    },
    /// The backend has to be asked.
    Sent,
    /// The number of a query's lists.
    Lists(usize),
    /// The design is even.
    Even,
    /// The design is uneven, by two constraints or one.
    Uneven {
        /// The constraint that ends at a table.
        i: u8,
        /// The constraint that starts at another column of it.
        j: u8,
    },
    /// The sum of a cell over a query's lists.
    Total(u64),
    /// The fewest constraints that are uneven without the others, bit i for
    /// constraint i.
    Knot(u16),
    /// The desk that is named from now on.
    Desk(u8),
    /// What a row that came or went did to the cache.
    Rows {
        /// Rows that came.
        came: usize,
        /// Rows that went.
        went: usize,
    },
    /// The length of a sentence on a row.
    Reason(usize),
    /// The row isn't cached.
    Absent,
    /// The probe has a ground already.
    Open,
    /// The load that would give it one.
    Opener {
        /// The filling.
        filling: u8,
        /// The value.
        value: Value,
    },
    /// No load would.
    NoOpener,
    /// A cause of refusal.
    Refused(u8),
}

/// A design at work.
pub struct Desk {
    design: Design,
    catalog: Catalog,
    cache: Cache,
    listing: Listing,
    evenness: Evenness,
    knot: Knot,
    opening: Opening,
    reasons: Reasons,
}

impl Desk {
    /// Reads a design from the head of a script; gives the place after it too.
    pub fn open(script: &[u8]) -> Result<(Box<Desk>, usize), Refusal> {
        let mut desk = Desk::zeros();
        desk.catalog.clear();
        desk.cache.empty();
        let read = desk.design.read(script);
        // A repeated value comes before whatever else the reading ended with.
        let repeated = match read {
            Ok(_) => desk.catalog.build(&desk.design),
            Err(_) => desk.catalog.repeated_row(&desk.design),
        };
        match repeated {
            Some(row) => Err(desk.design.repeats(script, row)),
            None => read.map(|place| (desk, place)),
        }
    }

    /// All zeros, which cost nothing until they are touched. Without `unsafe`
    /// they would be made elsewhere and copied, or each array would stand by
    /// itself behind a pointer, which makes queries slower.
    #[allow(unsafe_code)]
    fn zeros() -> Box<Desk> {
        // SAFETY: a desk is made of whole numbers and bools alone, and for these
        // all bytes 0 are a value.
        unsafe { Box::new_zeroed().assume_init() }
    }

    /// The design.
    pub fn design(&self) -> &Design {
        &self.design
    }

    /// The words of the last answer's lists, and older ones behind them.
    pub fn words(&self) -> &[u32] {
        &self.listing.words[..]
    }

    /// The text of the last reason.
    pub fn text(&self) -> &[u8] {
        self.reasons.text()
    }

    /// Carries out the command that the bytes begin with, of which there is at
    /// least one. Gives its answer and its width, or 0 for the width if it can't
    /// be read, so that nothing tells where the next begins.
    #[inline]
    pub fn step(&mut self, bytes: &[u8]) -> (Answer, usize) {
        let width = width(bytes[0]);
        if width == 0 {
            return (Answer::Refused(2), 0);
        }
        let Some(bytes) = bytes.get(..width) else {
            return (Answer::Refused(1), 0);
        };
        let (design, catalog) = (&self.design, &self.catalog);
        let answer = match bytes[0] {
            0x10 | 0x20 => {
                let value = value_at(bytes, 2);
                self.cache.refer(design, catalog, bytes[1], value)
            }
            0x11 | 0x21 => {
                let value = value_at(bytes, 2);
                self.cache.drop(design, catalog, bytes[1], value)
            }
            0x12 | 0x22 => {
                let value = value_at(bytes, 3);
                self.cache.probe(design, catalog, column_at(bytes), value)
            }
            0x1d => self.put(bytes),
            0x1e => self.take(bytes),
            0x18 => {
                let row = u16_at(bytes, 1);
                self.reasons.reason(design, catalog, &self.cache, row)
            }
            0x19 => {
                let value = value_at(bytes, 3);
                let (cache, column) = (&self.cache, column_at(bytes));
                self.opening.opener(design, catalog, cache, column, value)
            }
            0x13 | 0x23 => self.listing.query(design, catalog, &mut self.cache, bytes),
            0x14 => self.evenness.of(design),
            0x17 => self.cache.name(bytes[1]),
            0x1a => self.cache.hold_range(design, catalog, range_at(bytes)),
            0x1b => self.cache.release_range(design, catalog, range_at(bytes)),
            0x1c => self.knot.of(design),
            0x15 | 0x25 => self.listing.total(design, catalog, &mut self.cache, bytes),
            _ => Answer::Refused(3),
        };
        (answer, width)
    }

    /// Puts in a row.
    fn put(&mut self, bytes: &[u8]) -> Answer {
        let number = usize::from(u16_at(bytes, 1));
        match self.design.put_row(number, bytes) {
            0 => {}
            cause => return Answer::Refused(cause),
        }
        if self.catalog.repeats(&self.design, number) {
            self.design.clear_row(number);
            return Answer::Refused(6);
        }
        self.recache()
    }

    /// Takes out a row.
    fn take(&mut self, bytes: &[u8]) -> Answer {
        let number = usize::from(u16_at(bytes, 1));
        if !self.design.has_row(number) {
            return Answer::Refused(5);
        }
        self.design.clear_row(number);
        self.recache()
    }

    /// Makes the groups again, and loads again what is held.
    fn recache(&mut self) -> Answer {
        self.catalog.clear();
        self.catalog.build(&self.design);
        self.cache.reload(&self.design, &self.catalog)
    }

    /// Carries out all commands from a place of a script on, and leaves their
    /// answers behind.
    pub fn run(&mut self, script: &[u8], mut place: usize) {
        while place < script.len() {
            let (answer, width) = self.step(&script[place..]);
            black_box(answer);
            if width == 0 {
                return;
            }
            place += width;
        }
    }
}
