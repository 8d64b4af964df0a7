//! Cuts a line of text into words and signs, each with its column.

const SIGNS: [&str; 5] = ["->", "..", ".", "=", "-"];

/// The sign before an issue, which begins a comment elsewhere.
const ISSUE: &str = "#";

/// A word (letters, digits, `_`) or a sign.
#[derive(Clone, Copy, Debug, PartialEq, Eq)]
pub struct Token<'a> {
    /// The text.
    pub text: &'a str,
    /// Where it begins, in characters from 1.
    pub column: usize,
}

/// The sign for a blank cell.
const BLANK: &str = "-";

/// Something that is no token.
#[derive(Debug, PartialEq, Eq)]
pub struct Stray {
    /// What is wrong with it.
    pub message: String,
    /// Where it stands, in characters from 1.
    pub column: usize,
}

/// The tokens of a line; a comment has none.
pub fn tokens(line: &str) -> Result<Vec<Token<'_>>, Stray> {
    let mut tokens = Vec::new();
    let mut rest = line;
    let mut column = 1;
    while let Some(character) = rest.chars().next() {
        if character == '#' && !is_issue(tokens.last(), column, rest) {
            break;
        }
        let length = match token_length(rest) {
            Some(length) => {
                let text = &rest[..length];
                if text == BLANK && !stands_alone(tokens.last(), column, &rest[length..]) {
                    let message = "`-` stands for a blank cell, and has space around it".into();
                    return Err(Stray { message, column });
                }
                tokens.push(Token { text, column });
                length
            }
            None if character.is_whitespace() => character.len_utf8(),
            None => {
                let message = format!("`{character}` has no meaning here");
                return Err(Stray { message, column });
            }
        };
        column += rest[..length].chars().count();
        rest = &rest[length..];
    }
    Ok(tokens)
}

/// Whether the sign at the head of the text stands right behind the last token, and
/// right before a number.
fn is_issue(last: Option<&Token>, column: usize, text: &str) -> bool {
    let behind = last.is_some_and(|last| last.column + last.text.len() == column);
    let issue = text.strip_prefix(ISSUE);
    behind && issue.is_some_and(|issue| issue.starts_with(|c: char| c.is_ascii_digit()))
}

/// Whether there is space, or the line's end, before and behind a sign; an issue or a comment may
/// follow it.
fn stands_alone(last: Option<&Token>, column: usize, behind: &str) -> bool {
    let touches = last.is_some_and(|last| last.column + last.text.len() == column);
    let apart = |c: char| c.is_whitespace() || c == '#';
    !touches && (behind.is_empty() || behind.starts_with(apart))
}

/// The length in bytes of the token at the head of the text.
fn token_length(text: &str) -> Option<usize> {
    let word = text
        .find(|c: char| !c.is_ascii_alphanumeric() && c != '_')
        .unwrap_or(text.len());
    if word > 0 {
        return Some(word);
    }
    let mut signs = SIGNS.iter().chain([&ISSUE]);
    let sign = signs.find(|sign| text.starts_with(**sign));
    sign.map(|sign| sign.len())
}
