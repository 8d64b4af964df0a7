//! Compares what the library says of slices with the second implementation; and desks that
//! are fed a slice of a database, fetch by fetch, with a desk that has all of it.
//!
//! - [`library`] is what is compared: the proved library, in `boundary`, or another.
//! - [`fetches`] are lists of fetches as words.
//! - [`functions`] compares `missing` and the verdicts on lent states of every kind, with
//!   lists of fetches that are lawful, damaged or out of order.
//! - [`database`] makes databases of thousands of rows, and [`operations`] what is asked.
//! - [`feeder`] feeds a desk from a database.
//! - [`session`] asks the fed desk and the database, side by side.
//! - [`tally`] counts outcomes, so that a run that never reached one can't pass for a good
//!   one.

#![deny(unsafe_code)]

#[cfg(feature = "proved")]
pub mod boundary;
pub mod database;
pub mod feeder;
pub mod fetches;
pub mod functions;
pub mod library;
pub mod operations;
pub mod session;
pub mod tally;
