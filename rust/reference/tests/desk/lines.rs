//! A report's lines, behind the one that says what the design has.

use reference::{report_lending, ANSWER_WORDS};

/// The lines after the head, lists included.
pub fn lines(script: &[u8]) -> Vec<String> {
    lines_lending(script, ANSWER_WORDS)
}

/// The same if so many words are lent.
pub fn lines_lending(script: &[u8], words: usize) -> Vec<String> {
    let report = report_lending(script, words);
    let mut lines = report.lines().map(String::from);
    assert!(lines.next().is_some_and(|head| head.starts_with("design ")));
    lines.collect()
}
