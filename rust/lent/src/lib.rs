//! Compares the library, through its C boundary, with the second implementation on lent
//! states: sound ones, and ones that no run leaves.
//!
//! - [`states`] makes sound states by random runs.
//! - [`change`] makes them unlawful, in every way there is, or any words of them others.
//! - [`steps`] are the commands to step on, and what can't be read as one.
//! - [`memory`] is all that a call is lent, and fences behind it.
//! - [`library`] is what is compared: the proved library, in [`boundary`], or another.
//! - [`case`] puts a state, its change and the calls together.
//! - [`run`] calls both and stops at the first difference.
//! - [`tally`] counts flaws and outcomes, so that a run that never reached one can't pass
//!   for a good one.

#![deny(unsafe_code)]

#[cfg(feature = "proved")]
pub mod boundary;
pub mod case;
pub mod change;
pub mod library;
pub mod memory;
pub mod run;
pub mod states;
pub mod steps;
pub mod tally;
