//! A file's bytes to its text.

/// Why a file isn't text.
#[derive(Clone, Debug, PartialEq, Eq)]
pub struct NotText {
    /// The line of the first byte that isn't, from 1.
    pub line: usize,
    /// Its column, in characters from 1.
    pub column: usize,
    /// What is wrong.
    pub message: String,
}

const BYTE_ORDER_MARK: char = '\u{feff}';

/// The text of a file in UTF-8, without a byte order mark. Lines may end with CR LF.
pub fn text(bytes: &[u8]) -> Result<&str, NotText> {
    if let [0xff, 0xfe, ..] | [0xfe, 0xff, ..] = bytes {
        return Err(not_text("", "it looks like UTF-16: save it as UTF-8"));
    }
    let text = match std::str::from_utf8(bytes) {
        Ok(text) => text,
        Err(error) => {
            let valid = std::str::from_utf8(&bytes[..error.valid_up_to()]).unwrap_or_default();
            let byte = bytes[error.valid_up_to()];
            let message = format!("the byte {byte:#04x} isn't UTF-8");
            return Err(not_text(valid, &message));
        }
    };
    match text.find('\0') {
        Some(place) => Err(not_text(&text[..place], "it has a byte 0x00")),
        None => Ok(text.strip_prefix(BYTE_ORDER_MARK).unwrap_or(text)),
    }
}

/// The mistake right behind what is text.
fn not_text(before: &str, message: &str) -> NotText {
    let position = crate::span::Position::of(before, before.len());
    NotText {
        line: position.line,
        column: position.column,
        message: message.into(),
    }
}

#[cfg(test)]
mod tests {
    use super::{text, NotText};

    #[test]
    fn text_is_utf_8_without_zeros() {
        assert_eq!(text("a\r\né".as_bytes()), Ok("a\r\né"));
        assert_eq!(text(b"\xef\xbb\xbfdesign"), Ok("design"));
        let wrong = |line, column, message: &str| {
            let message = message.into();
            Err(NotText {
                line,
                column,
                message,
            })
        };
        assert_eq!(
            text("ä\nöü\0".as_bytes()),
            wrong(2, 3, "it has a byte 0x00")
        );
        assert_eq!(text(b"a\n\xff"), wrong(2, 1, "the byte 0xff isn't UTF-8"));
        assert_eq!(text(b"d\xc3"), wrong(1, 2, "the byte 0xc3 isn't UTF-8"));
        assert_eq!(
            text(b"\xff\xfed\0"),
            wrong(1, 1, "it looks like UTF-16: save it as UTF-8")
        );
    }
}
