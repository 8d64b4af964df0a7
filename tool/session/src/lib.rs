//! The desk over a slice of a database, asked by the names of a design.
//!
//! A [`Session`] has a proved desk, a part of a database's rows, and a dictionary for the values that aren't numbers. Whatever it answers, the whole database
//! would answer too: before an answer is told, the loop of docs/SLICES.md has fetched all that the library says is missing, whole. What is decided the library
//! decides; that names, dictionaries and fetching keep it true is held to SQL on whole databases by the tests.

mod ahead;
mod answers;
mod brought;
mod classes;
mod coder;
mod dictionary;
mod issued;
mod opener;
mod refresh;
mod reports;
mod rows;
mod session;
mod slice;
mod trouble;

pub use answers::{Answered, Held, Lists, Needs, Opener, Reason, Step, Wanted};
pub use brought::{Brought, By};
pub use issued::Issued;
pub use refresh::Refreshed;
pub use rows::{Entry, Identity, MOST_ROWS};
pub use session::Session;
pub use trouble::{TooLarge, Trouble};
pub use wurzsige::{Cause, Dropped, Ground, Probed, Referred, Refusal};
