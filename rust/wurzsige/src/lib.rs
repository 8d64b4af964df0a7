//! The row cache behind a review desk, for programs in Rust: the proved desk with typed
//! operations, on memory of its own.
//!
//! A [`Desk`] is opened from a design, which a [`Builder`] puts together or which stands in
//! the bytes of a script. Its operations are methods; an operation that is refused gives a
//! [`Refusal`], which names the operand that is wrong, and has changed nothing.
//!
//! ```
//! use wurzsige::{Answered, Builder, Cause, Ground, Probed, Query, Reasoned, Referred, Row};
//! use wurzsige::Named::{Plain, Unique};
//!
//! // Subjects with their wards, recordings of subjects, events of recordings.
//! let mut design = Builder::new();
//! let [subject, ward] = design.table("subjects", [Unique("number"), Plain("ward")]);
//! let [recording, of] = design.table("recordings", [Unique("number"), Plain("subject")]);
//! let [within, _] = design.table("events", [Plain("recording"), Plain("kind")]);
//! let recordings = design.constraint(subject, of); // a subject brings all its recordings
//! let events = design.constraint(recording, within); // a recording brings all its events
//! let wards = design.filling(ward, 1..=99);
//! for (table, cells) in [
//!     (0, [7, 3]), (0, [8, 3]), (0, [9, 4]),
//!     (1, [20, 7]), (1, [21, 9]),
//!     (2, [20, 5]), (2, [20, 6]), (2, [21, 5]),
//! ] {
//!     design.row(Row::new(table, cells));
//! }
//! let mut desk = design.open()?;
//!
//! // Ward 3 is loaded, with all that its subjects bring along.
//! assert_eq!(desk.refer(wards, 3)?, Referred::Loaded { rows: 5, rounds: 2 });
//!
//! // Subject 8 has no recording, and that is certain; of subject 9 nothing is known.
//! let certain = Probed::Ground { ground: Ground::Linked, rows: 0 };
//! assert_eq!(desk.probe(of, 8)?, certain);
//! assert_eq!(desk.probe(of, 9)?, Probed::Sent);
//!
//! // The ward's subjects with their recordings and events, as row numbers.
//! let query = Query::new(ward, 3).join(0, recordings).join(1, events);
//! let Answered::Lists(lists) = desk.query(&query)? else {
//!     panic!("ask the backend");
//! };
//! assert_eq!(lists.iter().collect::<Vec<_>>(), [[0, 3, 5], [0, 3, 6]]);
//!
//! // Why row 5 is here.
//! let Reasoned::Reason(reason) = desk.reason(5)? else {
//!     panic!("it isn't");
//! };
//! assert!(reason.words().ends_with("from row 0 by value 3 of filling 0"));
//! assert_eq!(reason.steps().len(), 2);
//!
//! // Ward 4 isn't held, so it can't be dropped.
//! assert_eq!(desk.drop_value(wards, 4).unwrap_err().cause, Cause::NotHeld);
//! # Ok::<(), Box<dyn std::error::Error>>(())
//! ```
//!
//! [`Desk::step`] takes the operations as the bytes of a script, and [`run`] a whole
//! script, design and operations: its lines are the report of the program `desk`.
//!
//! # The library
//!
//! The operations themselves are those of the proved static library `libwurzsige.a`. The
//! feature `proved`, which is on by default, links it: from the folder that the
//! environment variable `PROVED_DESK` names while this is built, or else from where
//! pkg-config finds `wurzsige`. Pages can be built, and programs checked, where the library
//! isn't at hand. Without the feature nothing is linked, and the program that uses the
//! crate has to link the library by other means.
//!
//! The library and this crate have to be of the same version. If they aren't, opening a
//! desk is refused with [`Cause::OtherVersion`].
//!
//! The crate needs `alloc` and not `std`.
//!
//! # A part of a database
//!
//! A desk takes its rows for the whole backend: of a table that was cut it answers for the
//! cut table. [`Desk::missing`] says what must still be fetched until a part of a larger
//! database is enough, and `docs/SLICES.md` in the repository how a desk is fed with it.
//!
//! # What is proved
//!
//! The operations are; this crate around them, which turns operands into bytes and
//! answers into values, is tested. A desk is only ever written by the library, so the
//! operations skip the test of lent memory (cause 12). [`Desk::from_memory`] makes it.

#![no_std]
#![deny(unsafe_code)]

extern crate alloc;
#[cfg(test)]
extern crate std;

mod answer;
mod answers;
mod builder;
mod command;
mod desk;
mod fault;
mod operand;
mod operations;
mod parts;
mod questions;
mod reason;
mod refusal;
mod report;
mod slices;
mod sound;
mod verdict;

pub use self::{
    answer::{Answer, Ground, Lists},
    answers::{
        Answered, Changed, Dropped, Evenness, Knot, Opener, Probed, Reasoned, Referred, Totalled,
    },
    builder::{Builder, DesignRefusal, Named, Part},
    desk::{Desk, Step},
    operand::{Column, Join, Query, Range, Row, Value},
    parts::{Constraint, Counts, Design, Filling, Held, Table},
    reason::{Origin, Reason, ReasonStep},
    refusal::{Cause, Operand, Refusal},
    report::{Line, Lines, Run, lines, run},
    slices::{Fetch, Fetches},
    verdict::Verdict,
};
pub use wurzsige_sys::{Memory, Sizes};

/// The example of the page that the package begins with.
#[cfg(doctest)]
#[doc = include_str!("../README.md")]
mod readme {}
