//! A value with the issue of its number, as users write it and as the tool shows it.
//!
//! A tuple's parts are joined by `|`; within a part `\|` stands for `|` and `\\` for `\`. Behind a value of a column that has issues `#` and the issue may stand,
//! in quotes behind the closing one; without it the issue is 0.

use std::fmt;

use design::{Column, Type, Word};
use source::Value;

/// A value with its issue, which is 0 where a column has none.
#[derive(Clone, Debug, PartialEq, Eq, PartialOrd, Ord, Hash)]
pub struct Issued {
    /// The value.
    pub value: Value,
    /// The issue.
    pub issue: u8,
}

impl From<Value> for Issued {
    fn from(value: Value) -> Issued {
        Issued { value, issue: 0 }
    }
}

impl Issued {
    /// As a word of a command, in quotes where it needs them.
    pub fn word(&self) -> String {
        let text = Issued::from(self.value.clone()).to_string();
        let needs = |c: char| c.is_whitespace() || c == '"' || c == '`' || c == '#';
        let quoted = match text.is_empty() || text.contains(needs) {
            true => format!("\"{}\"", text.replace('\\', "\\\\").replace('"', "\\\"")),
            false => text,
        };
        match self.issue {
            0 => quoted,
            issue => format!("{quoted}#{issue}"),
        }
    }
}

/// As users write it.
impl fmt::Display for Issued {
    fn fmt(&self, out: &mut fmt::Formatter<'_>) -> fmt::Result {
        match &self.value {
            Value::Tuple(parts) => write_tuple(out, parts)?,
            value => write!(out, "{value}")?,
        }
        match self.issue {
            0 => Ok(()),
            issue => write!(out, "#{issue}"),
        }
    }
}

fn write_tuple(out: &mut fmt::Formatter<'_>, parts: &[Value]) -> fmt::Result {
    for (index, part) in parts.iter().enumerate() {
        let between = if index == 0 { "" } else { "|" };
        let part = part.to_string().replace('\\', "\\\\").replace('|', "\\|");
        write!(out, "{between}{part}")?;
    }
    Ok(())
}

/// The texts that a word has for a column, one for each part of a tuple, and the issue; or what is wrong with it.
pub(crate) fn texts(column: &Column, word: &Word) -> Result<(Vec<String>, u8), String> {
    let (text, issue) = without_issue(column, word)?;
    let texts = match &column.kind {
        Type::Tuple(parts) => split(text, parts)?,
        _ => vec![text.to_string()],
    };
    Ok((texts, issue))
}

/// A word without the issue, which stands behind the last `#`.
fn without_issue<'w>(column: &Column, word: &'w Word) -> Result<(&'w str, u8), String> {
    let (text, issue) = match (&column.issue, word.quoted) {
        (None, _) if word.behind.is_empty() => (word.text.as_str(), None),
        (None, _) => return Err("the column has no issues".into()),
        (Some(_), true) => (word.text.as_str(), word.behind.strip_prefix('#')),
        (Some(_), false) => match word.text.rsplit_once('#') {
            Some((text, issue)) => (text, Some(issue)),
            None => (word.text.as_str(), None),
        },
    };
    match issue.map(str::parse) {
        None => Ok((text, 0)),
        Some(Ok(issue)) => Ok((text, issue)),
        Some(Err(_)) => Err("behind `#` stands an issue from 0 to 255".into()),
    }
}

/// The parts of a tuple's text.
fn split(text: &str, names: &[String]) -> Result<Vec<String>, String> {
    let mut parts = vec![String::new()];
    let mut characters = text.chars();
    while let Some(character) = characters.next() {
        let character = match character {
            '|' => {
                parts.push(String::new());
                continue;
            }
            '\\' => match characters.next() {
                Some(escaped @ ('|' | '\\')) => escaped,
                _ => {
                    return Err(
                        "in a tuple `\\|` stands for a part's `|`, and `\\\\` for its `\\`".into(),
                    )
                }
            },
            other => other,
        };
        parts.last_mut().expect("there is a part").push(character);
    }
    match parts.len() == names.len() {
        true => Ok(parts),
        false => Err(format!(
            "a value has {} parts: {}",
            names.len(),
            names.join("|")
        )),
    }
}

#[cfg(test)]
mod tests {
    use design::{words, Column, Role, Single, Type, Word};
    use source::Value;

    use super::{texts, Issued};

    fn column(kind: Type, issue: Option<&str>) -> Column {
        Column {
            name: "id".into(),
            role: Role::Key,
            kind,
            issue: issue.map(str::to_string),
        }
    }

    fn text() -> Type {
        Single::Text.into()
    }

    fn pair() -> Type {
        Type::Tuple(vec!["recording_id".into(), "label".into()])
    }

    fn word(text: &str) -> Word {
        words(text).expect(text).remove(0)
    }

    #[test]
    fn an_issue_stands_behind_a_value_of_a_column_that_has_issues() {
        let (plain, issued) = (column(text(), None), column(text(), Some("n")));
        let one = |text: &str| vec![text.to_string()];
        assert_eq!(texts(&plain, &word("7#1")), Ok((one("7#1"), 0)));
        assert_eq!(texts(&issued, &word("7#1")), Ok((one("7"), 1)));
        assert_eq!(texts(&issued, &word("7")), Ok((one("7"), 0)));
        assert_eq!(texts(&issued, &word("\"7#1\"")), Ok((one("7#1"), 0)));
        assert_eq!(texts(&issued, &word("\"7#1\"#255")), Ok((one("7#1"), 255)));
        for wrong in ["7#256", "7#", "7#x"] {
            assert!(texts(&issued, &word(wrong)).is_err(), "{wrong}");
        }
        assert!(texts(&plain, &word("\"7\"#1")).is_err());
    }

    #[test]
    fn a_value_is_a_word_or_stands_in_quotes() {
        let issued = column(text(), Some("n"));
        for (text, issue, written) in [
            ("W-NORD", 0, "W-NORD"),
            ("", 0, "\"\""),
            ("St. \"A\"\\", 2, "\"St. \\\"A\\\"\\\\\"#2"),
            ("7#1", 0, "\"7#1\""),
            ("7", 1, "7#1"),
        ] {
            let value = Value::Text(text.into());
            assert_eq!(Issued { value, issue }.word(), written);
            assert_eq!(
                texts(&issued, &word(written)),
                Ok((vec![text.into()], issue))
            );
        }
    }

    #[test]
    fn what_is_shown_of_a_tuple_is_read_as_it() {
        let column = column(pair(), None);
        for label in ["C3", "C3|A2", "\\", "\\|", ""] {
            let value = Value::Tuple(vec![Value::Number(50_012), Value::Text(label.into())]);
            let shown = Issued::from(value).to_string();
            let expected = vec!["50012".to_string(), label.to_string()];
            assert_eq!(
                texts(&column, &Word::plain(&shown)),
                Ok((expected, 0)),
                "{shown}"
            );
        }
        for wrong in ["50012", "1|2|3", "1|\\x", "1|2\\"] {
            assert!(texts(&column, &Word::plain(wrong)).is_err(), "{wrong}");
        }
    }
}
