//! The causes of refusal, which stand behind [`crate::word::REFUSED`]: C's
//! `enum wurzsige_cause`.
//!
//! ```
//! use wurzsige_sys::{cause, word, Memory};
//!
//! let told = Memory::boxed().open(&[]);
//! assert_eq!((told.word, told.numbers[0]), (word::REFUSED, cause::TOO_FEW_BYTES.into()));
//! ```

crate::constants::constants! { "wurzsige_sys::cause::":
    /// Too few bytes for a command, or no END.
    TOO_FEW_BYTES: u8 = 1;
    /// Unknown command byte.
    UNKNOWN_COMMAND: u8 = 2;
    /// Command out of its order.
    OUT_OF_ORDER: u8 = 3;
    /// Too many script bytes, tables, constraints, fillings or rows.
    TOO_MANY: u8 = 4;
    /// Operand wrong.
    WRONG_OPERAND: u8 = 5;
    /// A value twice in a unique column.
    VALUE_TWICE: u8 = 6;
    /// Lent memory too short, or the room for the written design.
    TOO_SHORT: u8 = 7;
    /// No place for one value or range more.
    NO_PLACE_FREE: u8 = 8;
    /// Value 0 in an operation.
    VALUE_ZERO: u8 = 9;
    /// What is dropped isn't held.
    NOT_HELD: u8 = 10;
    /// The answer is too long for the words or the text that are lent.
    ANSWER_TOO_LONG: u8 = 11;
    /// The lent desk is unlawful.
    UNLAWFUL: u8 = 12;
    /// A total above 2^64 - 1.
    TOTAL_TOO_LARGE: u8 = 13;
    /// The library is of another version than this crate; its version is the answer's second
    /// number. No cause of the desk itself.
    OTHER_VERSION: u8 = 255;
}
