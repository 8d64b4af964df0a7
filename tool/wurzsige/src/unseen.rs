//! Characters that can't be seen, written out in pictures and pages, so that two names which differ look different and none turns the text around it.

/// How a character is written out that shows nothing by itself, or turns the direction of what is around it: controls, marks and overrides of
/// direction, ends of lines, spaces without a width. None for any other.
pub fn written_out(character: char) -> Option<String> {
    let is_unseen = character.is_control()
        || matches!(
            character,
            '\u{61c}'
                | '\u{200b}'
                | '\u{200e}'
                | '\u{200f}'
                | '\u{2028}'..='\u{202e}'
                | '\u{2060}'..='\u{2069}'
                | '\u{feff}'
        );
    is_unseen.then(|| format!("‹U+{:04X}›", u32::from(character)))
}
