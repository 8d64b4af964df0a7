//! Why an operation isn't carried out. Whatever it is, the session is as before.

use std::fmt;

use source::Failure;
use wurzsige::{Operand, Refusal};

use crate::brought::Brought;
use crate::rows::MOST_ROWS;

/// Why an operation isn't carried out.
#[derive(Clone, Debug)]
pub enum Trouble {
    /// It needs more rows than a desk can have.
    TooLarge(TooLarge),
    /// The desk refuses it.
    Refused(Refusal),
    /// The database can't be read, or has what no desk can have.
    Failed(Failure),
    /// The last refresh failed, so that what is here and what would be fetched may be of different snapshots.
    Stale(Failure),
    /// It names what can't be asked for, in the words for the user.
    Wrong(String),
}

/// What is known of an operation that needs more rows than a desk can have.
#[derive(Clone, Debug, PartialEq, Eq)]
pub struct TooLarge {
    /// The rows that it was known to need, with all that is held beside it, when it was broken off; it may need more.
    pub rows: usize,
    /// What brought them.
    pub brought: Vec<Brought>,
}

impl From<Refusal> for Trouble {
    fn from(refusal: Refusal) -> Trouble {
        Trouble::Refused(refusal)
    }
}

impl From<Failure> for Trouble {
    fn from(failure: Failure) -> Trouble {
        Trouble::Failed(failure)
    }
}

impl fmt::Display for Trouble {
    fn fmt(&self, out: &mut fmt::Formatter<'_>) -> fmt::Result {
        match self {
            Trouble::TooLarge(_) => write!(out, "it needs more than {MOST_ROWS} rows"),
            // a value's number says nothing to users
            Trouble::Refused(refusal) => match refusal.operand {
                Some(operand @ (Operand::Desk(_) | Operand::Low(_) | Operand::High(_))) => {
                    write!(out, "{}: {operand}", refusal.cause)
                }
                _ => write!(out, "{}", refusal.cause),
            },
            Trouble::Failed(failure) => write!(out, "{failure}"),
            Trouble::Stale(failure) => write!(
                out,
                "nothing is answered since the last refresh failed ({failure}): refresh again"
            ),
            Trouble::Wrong(why) => out.write_str(why),
        }
    }
}

impl std::error::Error for Trouble {}
