//! Values of a database, as far as columns of a design can have them.

use std::fmt;

/// A value. Two values of one class of columns are the same exactly if the database says that they are equal.
#[derive(Clone, Debug, PartialEq, Eq, PartialOrd, Ord, Hash)]
pub enum Value {
    /// Of `integer` and `bigint`.
    Number(i64),
    /// Of `text`, and of `uuid`, `date` and `timestamp` as the database writes them.
    Text(String),
    /// Of `boolean`.
    Boolean(bool),
    /// Of a tuple: its parts.
    Tuple(Vec<Value>),
}

/// As the user writes it: a tuple's parts joined by `|`.
impl fmt::Display for Value {
    fn fmt(&self, out: &mut fmt::Formatter<'_>) -> fmt::Result {
        match self {
            Value::Number(number) => write!(out, "{number}"),
            Value::Text(text) => out.write_str(text),
            Value::Boolean(boolean) => write!(out, "{boolean}"),
            Value::Tuple(parts) => parts.iter().enumerate().try_for_each(|(index, part)| {
                let between = if index == 0 { "" } else { "|" };
                write!(out, "{between}{part}")
            }),
        }
    }
}
