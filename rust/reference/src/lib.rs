//! A second implementation of the desk, written from documents 01 and 02 alone.
//!
//! It exists to be compared with the proved desk: bytes in, report text out.
//! It is kept as plain as the rules allow, shares no code with the proved part
//! or with the script notation, and looks up rows by walking over all of them.
//! What callers lend is looked at in [`lent`], and carried out on a desk of its own.
//! Its one refinement is in [`query`]: lists are counted before they are
//! written, and a total without writing them, so that neither takes exponential
//! time. A knot is looked for among all sets of constraints, but once only.

#![forbid(unsafe_code)]

pub mod design;
pub mod desk;
pub mod even;
pub mod held;
pub mod knot;
pub mod lent;
pub mod opener;
pub mod query;
pub mod reason;
pub mod refusal;
pub mod report;
pub mod script;
pub mod slice;
pub mod verdict;

pub use report::{report, report_lending, report_lending_text, ANSWER_WORDS};
