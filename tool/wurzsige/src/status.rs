//! How the program ends.

use std::process::ExitCode;

/// The exit status; of two the worse counts.
#[derive(Clone, Copy, Debug, PartialEq, Eq, PartialOrd, Ord)]
pub enum Status {
    /// All is well.
    Good = 0,
    /// A warning was found.
    Warned = 1,
    /// The design or the command is refused.
    Refused = 2,
    /// A file can't be read or written.
    Unreadable = 3,
}

impl From<Status> for ExitCode {
    fn from(status: Status) -> ExitCode {
        ExitCode::from(status as u8)
    }
}
