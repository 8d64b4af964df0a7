//! Where something stands in a file.

use std::ops::Range;

/// A piece of a file's text, in bytes.
pub type Span = Range<usize>;

/// A place for readers, both numbers counted from 1.
#[derive(Clone, Copy, Debug, PartialEq, Eq, PartialOrd, Ord)]
pub struct Position {
    /// The line.
    pub line: usize,
    /// The column, in characters.
    pub column: usize,
}

impl Position {
    /// The place of a byte of a text.
    pub fn of(text: &str, byte: usize) -> Position {
        let before = &text[..byte];
        let line_start = before.rfind('\n').map_or(0, |end| end + 1);
        Position {
            line: before.matches('\n').count() + 1,
            column: before[line_start..].chars().count() + 1,
        }
    }
}

/// From the start of one piece to the end of another.
pub(crate) fn joined(first: &Span, last: &Span) -> Span {
    first.start..last.end
}
