//! Causes of refusal, by their numbers in document 01.
//!
//! Causes 7 and 12 are about lent memory: only [`crate::lent`] has them. A desk that
//! owns its memory has neither.

use std::fmt;

/// Why a command is refused. The discriminant is the number that is reported.
#[derive(Clone, Copy, Debug, PartialEq, Eq)]
pub enum Cause {
    /// Too few bytes for a command, or no END.
    TooFewBytes = 1,
    /// Unknown command byte.
    UnknownCommand = 2,
    /// Command out of its order.
    OutOfOrder = 3,
    /// Over-long script, or a largest count passed.
    TooMany = 4,
    /// Operand wrong.
    WrongOperand = 5,
    /// A unique column gets a value other than blank twice.
    ValueTwice = 6,
    /// A lent buffer too short for rows or words, or for the written design.
    TooShort = 7,
    /// REFER of a candidate that the desk doesn't hold yet, while it holds 16; or a
    /// range that would leave it more than 8.
    NoPlaceFree = 8,
    /// Value 0 in an operation.
    ValueZero = 9,
    /// DROP of a pair, or of a range, that the desk doesn't hold.
    NotHeld = 10,
    /// QUERY with a ground, or referred first, whose list needs more words than
    /// are lent; or a reason longer than the lent text.
    AnswerTooLong = 11,
    /// Lent state unlawful.
    Unlawful = 12,
    /// A total above 2^64 - 1.
    TotalTooLarge = 13,
}

impl Cause {
    /// `Ok` if `condition` is true, otherwise this cause.
    pub fn unless(self, condition: bool) -> Result<(), Cause> {
        if condition {
            Ok(())
        } else {
            Err(self)
        }
    }
}

/// A cause together with the place of the faulty command.
#[derive(Clone, Copy, Debug, PartialEq, Eq)]
pub struct Refusal {
    /// Why the command is refused.
    pub cause: Cause,
    /// The byte at which the command begins; 0 for an over-long script.
    pub place: usize,
}

impl fmt::Display for Refusal {
    fn fmt(&self, out: &mut fmt::Formatter<'_>) -> fmt::Result {
        write!(out, "refused {} {}", self.cause as u8, self.place)
    }
}
