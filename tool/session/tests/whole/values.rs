//! Values that databases have, also those that are easily taken for others: texts that differ in case, in blanks or in a zero, numbers at the ends of their types, pairs,
//! and numbers that were given again.

use design::Word;
use source::Value;

/// What a column's values are like.
#[derive(Clone, Copy, Debug, PartialEq, Eq)]
pub enum Kind {
    Integer,
    Bigint,
    Text,
    Uuid,
    Date,
    Boolean,
    /// A tuple of a number and a text.
    Pair,
    /// A text with an issue.
    Issued,
}

/// A value as SQL has it: one part, or two of a pair; and its issue, where it has one.
#[derive(Clone, Debug, PartialEq, Eq)]
pub struct Val {
    pub parts: Vec<Lit>,
    pub issue: Option<u8>,
}

#[derive(Clone, Debug, PartialEq, Eq)]
pub enum Lit {
    Number(i64),
    Text(String),
    Boolean(bool),
}

impl Lit {
    pub fn sql(&self) -> String {
        match self {
            Lit::Number(number) => number.to_string(),
            Lit::Text(text) => format!("'{}'", text.replace('\'', "''")),
            Lit::Boolean(boolean) => boolean.to_string(),
        }
    }

    fn text(&self) -> String {
        match self {
            Lit::Number(number) => number.to_string(),
            Lit::Text(text) => text.clone(),
            Lit::Boolean(boolean) => boolean.to_string(),
        }
    }
}

impl Val {
    /// As a user writes it, in quotes.
    pub fn word(&self) -> Word {
        let texts: Vec<String> = self.parts.iter().map(Lit::text).collect();
        Word {
            text: joined(&texts),
            quoted: true,
            behind: self
                .issue
                .map_or(String::new(), |issue| format!("#{issue}")),
            span: 0..0,
        }
    }

    /// The value of a row that was read.
    pub fn of(value: &Value, issue: Option<u8>) -> Val {
        let lit = |value: &Value| match value {
            Value::Number(number) => Lit::Number(*number),
            Value::Text(text) => Lit::Text(text.clone()),
            Value::Boolean(boolean) => Lit::Boolean(*boolean),
            Value::Tuple(_) => panic!("a tuple in a tuple"),
        };
        let parts = match value {
            Value::Tuple(parts) => parts.iter().map(lit).collect(),
            single => vec![lit(single)],
        };
        Val { parts, issue }
    }
}

/// A tuple's parts as one text; a single part as it is.
pub fn joined(texts: &[String]) -> String {
    match texts {
        [single] => single.clone(),
        parts => {
            let parts = parts
                .iter()
                .map(|part| part.replace('\\', "\\\\").replace('|', "\\|"));
            parts.collect::<Vec<_>>().join("|")
        }
    }
}

/// The value with a number among those of a kind; no two numbers have the same.
pub fn value(kind: Kind, number: usize) -> Val {
    let issue = (kind == Kind::Issued).then_some((number % 3) as u8);
    let parts = match kind {
        Kind::Integer => vec![Lit::Number(integer(number))],
        Kind::Bigint => vec![Lit::Number(bigint(number))],
        Kind::Text => vec![Lit::Text(text(number))],
        Kind::Uuid => vec![Lit::Text(format!(
            "{number:08x}-57af-4000-8000-{:012x}",
            number * 7919
        ))],
        Kind::Date => vec![Lit::Text(format!(
            "{:04}-{:02}-{:02}",
            1900 + number / 336,
            1 + number / 28 % 12,
            1 + number % 28
        ))],
        Kind::Boolean => vec![Lit::Boolean(number % 2 == 1)],
        Kind::Pair => vec![
            Lit::Number(number as i64 / 4 + 1),
            Lit::Text(text(number % 4 * 11)),
        ],
        Kind::Issued => vec![Lit::Text(text(number / 3))],
    };
    Val { parts, issue }
}

/// From 1 on; every 50th from the largest back.
pub fn integer(number: usize) -> i64 {
    match number % 50 {
        49 => i64::from(u32::MAX) - number as i64 / 50,
        _ => number as i64 + 1,
    }
}

fn bigint(number: usize) -> i64 {
    match number % 4 {
        0 => number as i64,
        1 => -(number as i64),
        2 => i64::MAX - number as i64,
        _ => i64::MIN + number as i64,
    }
}

/// Texts in groups of ten that are alike.
fn text(number: usize) -> String {
    let group = number / 10;
    match number % 10 {
        0 if group == 0 => String::new(),
        0 => format!("Ward {group}"),
        1 => format!("ward {group}"),
        2 => format!("Ward {group} "),
        3 => format!("{group}"),
        4 => format!("0{group}"),
        5 => format!("O'Hara \"{group}\""),
        6 => format!("a|{group}\\b"),
        7 => format!("Übung {group}\u{301}"),
        8 => format!("{group}.0"),
        _ => format!("#{group}#1"),
    }
}
