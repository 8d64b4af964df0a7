//! Databases for tests: the same tables in a file of SQLite and on a PostgreSQL server, which one test program starts for itself in a temporary folder, with
//! a unix socket alone, and which ends with it; and a source that remembers what was fetched of it.

mod folder;
mod lab;
mod recorded;
mod server;

pub use folder::Folder;
pub use lab::Lab;
pub use recorded::{Fetched, Recorded};
pub use server::{Server, Session};
