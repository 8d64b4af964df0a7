//! The proved desk's functions for C and Rust, as `include/wurzsige.h` declares them.
//! That header's comments are the contract; the tests hold what stands here to it.
//!
//! [`Memory`] is C's `struct wurzsige`: all that a desk keeps. The functions on a whole desk
//! are its methods. Those that can be called with anything are safe. Those whose names end
//! in `_trusted` aren't.
//!
//! ```
//! use wurzsige_sys::{word, Memory};
//!
//! // A table of two columns; then whether the design is even.
//! let script = [0x01, 2, 0, 0x05, 0x14];
//! let mut memory = Memory::boxed();
//! let told = memory.open(&script);
//! assert_eq!(told.word, word::DESIGN);
//! assert_eq!(memory.step(&script, told.next, &mut [], &mut []).word, word::EVEN);
//! ```
//!
//! A program in Rust is better served by the crate `wurzsige`, which has typed
//! operations and no function that is unsafe.
//!
//! With the feature `proved` the static library is linked: from the folder that the
//! environment variable `PROVED_DESK` names while this is built, or else from where
//! pkg-config finds `wurzsige`. Without it nothing is linked, and whoever uses the
//! functions has to see to that. The crate needs `alloc` and not `std`.

#![no_std]

extern crate alloc;
#[cfg(test)]
extern crate std;

mod access;
mod calls;
pub mod cause;
pub mod command;
mod constants;
mod limits;
mod memory;
// No promise of this crate: what these functions take changes with the layout of `Memory`.
#[doc(hidden)]
pub mod parts;
mod slices;
mod told;
mod version;
pub mod word;

pub use limits::{COLUMNS, CONSTRAINTS, DESKS, FILLINGS, FREE, JOINS, RANGES, TABLES, VALUES};
pub use memory::{CATALOG, CELLS, DESIGN_WORDS, HELD_WORDS, KEYS, Memory, ROWS, WORKING};
pub use slices::{FETCH_WORDS, VERDICT_WORDS, verdict, verdicts};
pub use told::{MOST_COMMAND, MOST_DESIGN, MOST_SCRIPT, MOST_TEXT, NUMBERS, Sizes, Told};
pub use version::{VERSION, library_version};
