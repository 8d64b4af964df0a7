//! What a single column of a database stands for in a design, and the values that it may have.

use std::fmt;

use design::{Role, Single, Type};

use crate::database::Cell;
use crate::Value;

/// What a column of the database is used as.
#[derive(Clone, Copy, Debug, PartialEq, Eq)]
pub(crate) enum Kind {
    /// A column of the design, or a tuple's part, of a type.
    Of(Single),
    Measure,
    Issue,
}

impl Kind {
    /// The kind of a column that is no tuple.
    pub(crate) fn of(kind: &Type, role: Role) -> Option<Kind> {
        match (kind, role) {
            (Type::Tuple(_), _) => None,
            (Type::Single(_), Role::Measure) => Some(Kind::Measure),
            (Type::Single(single), _) => Some(Kind::Of(*single)),
        }
    }

    /// The type that a design has for it.
    pub(crate) fn single(self) -> Single {
        match self {
            Kind::Of(single) => single,
            Kind::Measure | Kind::Issue => Single::Integer,
        }
    }

    /// Whether its values are whole numbers.
    pub(crate) fn is_number(self) -> bool {
        self.single().is_number()
    }

    /// Whether its values are texts, or written as such.
    pub(crate) fn is_text(self) -> bool {
        !self.is_number() && self != Kind::Of(Single::Boolean)
    }

    /// The lowest and the highest number.
    fn limits(self) -> (i64, i64) {
        match self {
            Kind::Of(Single::Integer) => (1, u32::MAX.into()),
            Kind::Measure => (0, u32::MAX.into()),
            Kind::Issue => (0, u8::MAX.into()),
            _ => (i64::MIN, i64::MAX),
        }
    }

    /// The value of a cell that isn't NULL, or what is wrong with it, to stand behind "is .., and".
    pub(crate) fn value(self, cell: &Cell) -> Result<Value, String> {
        match (self, cell) {
            (Kind::Of(Single::Boolean), Cell::Number(0)) => Ok(Value::Boolean(false)),
            (Kind::Of(Single::Boolean), Cell::Number(1)) => Ok(Value::Boolean(true)),
            (kind, Cell::Number(number)) if kind.is_number() => kind.number(*number),
            (kind, Cell::Text(text)) if kind.is_text() => Ok(Value::Text(text.clone())),
            (kind, _) => Err(format!("that is no {kind}")),
        }
    }

    fn number(self, number: i64) -> Result<Value, String> {
        let (low, high) = self.limits();
        match self {
            _ if (low..=high).contains(&number) => Ok(Value::Number(number)),
            Kind::Of(Single::Integer) if number == 0 => Err(
                "`integer` begins at 1, since 0 stands for NULL: declare it `bigint`".to_string(),
            ),
            Kind::Of(Single::Integer) => {
                Err("`integer` is 1 to 4,294,967,295: declare it `bigint`".into())
            }
            Kind::Measure => Err("a measure is 0 to 4,294,967,295".into()),
            _ => Err(format!("an issue is {low} to {high}")),
        }
    }

    /// The value that a user's text stands for, of a number or boolean.
    pub(crate) fn read(self, text: &str) -> Result<Value, String> {
        if self == Kind::Of(Single::Boolean) {
            return match text {
                "true" | "t" | "1" => Ok(Value::Boolean(true)),
                "false" | "f" | "0" => Ok(Value::Boolean(false)),
                _ => Err("write true or false".into()),
            };
        }
        match text.parse() {
            Ok(number) => self.number(number),
            Err(_) => Err("that is no whole number".into()),
        }
    }
}

/// As a message names it.
impl fmt::Display for Kind {
    fn fmt(&self, out: &mut fmt::Formatter<'_>) -> fmt::Result {
        out.write_str(match self.single() {
            Single::Integer | Single::Bigint => "whole number",
            Single::Uuid => "UUID",
            Single::Date => "date (YYYY-MM-DD)",
            Single::Timestamp => "timestamp (YYYY-MM-DD HH:MM:SS)",
            other => other.name(),
        })
    }
}
