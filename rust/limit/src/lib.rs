//! A desk written for speed alone, from documents 01 and 02: the benchmark's
//! measure of how fast the work can be done.
//!
//! The rows of a column that have the same value are a *group*. What a group is
//! and which group a constraint demands of a row depend on the design and its rows
//! alone, so they are worked out when a design has been accepted and when a row comes
//! or goes, and every other operation follows these links and touches the rows that it
//! reaches and no others.
//!
//! - [`design`] reads a design.
//! - [`catalog`] has the groups and the links between them.
//! - [`cache`] has the cached rows and loads values.
//! - [`dropping`] drops them.
//! - [`ranges`] holds and drops ranges of them.
//! - [`probe`], [`query`], [`total`], [`reason`],
//!   [`opener`], [`even`] and [`knot`] answer.
//! - [`desk`] carries out a script's commands.
//! - [`mod@report`] prints.
//!
//! Like the second implementation it is tested, not proved: its reports are
//! compared with the second implementation's, byte for byte.

#![deny(unsafe_code)]

pub mod cache;
pub mod catalog;
pub mod design;
pub mod desk;
pub mod dropping;
pub mod even;
pub mod knot;
pub mod opener;
pub mod probe;
pub mod query;
pub mod ranges;
pub mod reason;
pub mod report;
pub mod total;

pub use desk::{Answer, Desk};
pub use report::report;

/// The most tables of a design.
pub const TABLES: usize = 8;

/// The most rows of a design.
pub const ROWS: usize = 512;

/// The cells of a row, and the most columns of a table.
pub const CELLS: usize = 8;

/// The most constraints of a design.
pub const CONSTRAINTS: usize = 16;

/// Where a row number could stand: no row.
pub const NO_ROW: u16 = ROWS as u16;
