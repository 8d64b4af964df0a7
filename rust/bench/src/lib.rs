//! Times the desk's work side by side in different implementations.
//!
//! - [`work`] says what is done: a design, operations before the clock starts
//!   and operations on the clock.
//! - [`contestant`] is what an implementation has to offer to take part, and
//!   [`contestants`] lists those that do.
//! - [`measure`] takes the times, by the [`clock`] for processor time, and
//!   [`table`] sets them out. [`process`] takes those of whole programs.
//! - [`slowest`] looks for the slowest scripts.
//! - `steps`, with the feature `proved`, has the library's figures: what a checked and
//!   a trusted step cost, and how much stack a call takes.

#![deny(unsafe_code)]

pub mod clock;
pub mod contestant;
pub mod limit_desk;
pub mod measure;
pub mod process;
#[cfg(feature = "proved")]
pub mod proved;
pub mod second;
pub mod slowest;
#[cfg(feature = "sqlite")]
pub mod sqlite;
#[cfg(feature = "proved")]
pub mod steps;
pub mod table;
pub mod work;

use contestant::Contestant;

/// The implementations that take part.
pub fn contestants() -> Vec<Box<dyn Contestant>> {
    vec![
        #[cfg(feature = "proved")]
        Box::new(proved::ProvedDesk),
        Box::new(limit_desk::Limit),
        Box::new(second::SecondImplementation),
        #[cfg(feature = "sqlite")]
        Box::new(sqlite::Sqlite),
    ]
}
