//! Compares a desk program with the second implementation, or with another desk
//! program, on generated scripts, byte by byte of the reports.
//!
//! - [`generate`] makes the scripts from a seed, each from its own number.
//! - [`level`] takes out of them, and of replies, what a request of document 02
//!   has changed.
//! - [`answers`] takes a report apart.
//! - [`desk`] runs the desk program as a child process.
//! - [`run`] puts the two side by side and stops at the first difference.
//! - [`examples`] are scripts with their reports, which the desk is held to too.
//! - [`reduce`] makes the script of a difference small.
//! - [`replay`] goes through a script command by command.
//! - [`tally`] counts commands, and which answers, causes and extremes were
//!   reached, so that a run that never reached one can't pass for a good one.
//! - [`faults`] makes reads and writes of the desk program fail.

#![forbid(unsafe_code)]

pub mod answers;
pub mod desk;
pub mod examples;
pub mod faults;
pub mod generate;
pub mod level;
pub mod random;
pub mod reduce;
pub mod replay;
pub mod run;
pub mod tally;
