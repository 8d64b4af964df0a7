//! The word of an answer, as the desk's report prints it: C's `enum wurzsige_word`,
//! which says what numbers stand behind each.
//!
//! ```
//! use wurzsige_sys::{word, Memory};
//!
//! let mut memory = Memory::boxed();
//! assert_eq!(memory.open(&[0x01, 2, 0, 0x05]).word, word::DESIGN);
//! assert_eq!(memory.step(&[0x1c], 0, &mut [], &mut []).word, word::EVEN);
//! ```

crate::constants::constants! { "wurzsige_sys::word::":
    /// Rows, later rounds.
    LOADED: u8 = 0;
    /// The value or range is held already.
    HELD: u8 = 1;
    /// The filling doesn't have it among its candidates.
    NO_CANDIDATE: u8 = 2;
    /// Rows.
    DROPPED: u8 = 3;
    /// Ground, cached rows with the value.
    GROUND: u8 = 4;
    /// The backend has to be asked.
    SENT: u8 = 5;
    /// Lists; their row numbers are in the lent words, one list behind the other.
    LISTS: u8 = 6;
    /// Cause.
    REFUSED: u8 = 7;
    /// The design is even.
    EVEN: u8 = 8;
    /// Constraint i, constraint j.
    UNEVEN: u8 = 9;
    /// Total.
    TOTAL: u8 = 10;
    /// Constraints, rising.
    KNOT: u8 = 11;
    /// Desk.
    DESK: u8 = 12;
    /// The probe has a ground already.
    OPEN: u8 = 13;
    /// Filling, number, issue.
    OPENER: u8 = 14;
    /// No candidate would give the probe a ground.
    NO_OPENER: u8 = 15;
    /// The row isn't cached.
    ABSENT: u8 = 16;
    /// Bytes; the sentence is in the lent text.
    REASON: u8 = 17;
    /// Rows that came, rows that went.
    CHANGED: u8 = 18;
    /// Tables, constraints, fillings, rows: a design was opened.
    DESIGN: u8 = 19;
}
