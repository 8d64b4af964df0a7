//! Opens databases of tests behind designs.
#![allow(dead_code)] // each test file uses some of it

use design::{Place, Problem};
use source::{Condition, Failure, NotOpened, Opened, Record, Source, Value};
use testing::Lab;

/// Opens a database behind a design's text.
pub fn open(lab: &Lab, text: &str) -> Result<Opened, NotOpened> {
    let reading = design::read(text);
    let design = reading
        .design
        .unwrap_or_else(|| panic!("{text}\n{:?}", reading.problems));
    source::open(&lab.source(), &design, &reading.spans)
}

/// Opens one that fits, with no warnings.
pub fn opened(lab: &Lab, text: &str) -> Box<dyn Source> {
    match open(lab, text) {
        Ok(opened) => {
            assert_eq!(opened.warnings, [], "{}", lab.name());
            opened.source
        }
        Err(refused) => panic!("{}: {refused:?}", lab.name()),
    }
}

/// The problems of one that doesn't fit.
pub fn problems(lab: &Lab, text: &str) -> Vec<Problem> {
    match open(lab, text) {
        Ok(_) => panic!("{} is open", lab.name()),
        Err(NotOpened::Unreadable(why)) => panic!("{}: {why}", lab.name()),
        Err(NotOpened::Problems(problems)) => problems,
    }
}

/// The only problem of one that doesn't fit, as `CODE at LINE:COLUMN: message`.
pub fn problem(lab: &Lab, text: &str) -> String {
    let problems = problems(lab, text);
    assert_eq!(problems.len(), 1, "{}: {problems:?}", lab.name());
    told(&problems[0], text)
}

/// A problem as `CODE at LINE:COLUMN: message`.
pub fn told(problem: &Problem, text: &str) -> String {
    let position = problem.position(text);
    let (code, message) = (problem.code.name(), &problem.message);
    format!("{code} at {}:{}: {message}", position.line, position.column)
}

/// A column by the numbers of its table and of itself.
pub fn at(table: usize, column: usize) -> Place {
    Place { table, column }
}

/// That a column has a value.
pub fn has(column: Place, value: impl Into<Given>) -> Condition {
    Condition::Value {
        column,
        value: value.into().0,
        issue: 0,
    }
}

/// A value, from what a test writes.
pub struct Given(pub Value);

impl From<i64> for Given {
    fn from(number: i64) -> Given {
        Given(Value::Number(number))
    }
}

impl From<&str> for Given {
    fn from(text: &str) -> Given {
        Given(Value::Text(text.into()))
    }
}

impl From<bool> for Given {
    fn from(boolean: bool) -> Given {
        Given(Value::Boolean(boolean))
    }
}

impl<A: Into<Given>, B: Into<Given>> From<(A, B)> for Given {
    fn from((left, right): (A, B)) -> Given {
        Given(Value::Tuple(vec![left.into().0, right.into().0]))
    }
}

/// The rows of a condition.
pub fn fetched(source: &mut dyn Source, condition: &Condition) -> Vec<Record> {
    source.fetch(condition).expect("rows")
}

/// The texts of a column's values in records, NULL as `NULL`.
pub fn texts(records: &[Record], column: usize) -> Vec<String> {
    let values = records.iter().map(|record| &record.values[column]);
    let text = |value: &Option<Value>| value.as_ref().map_or("NULL".into(), Value::to_string);
    values.map(text).collect()
}

/// The words of what doesn't fit.
pub fn unfit<T: std::fmt::Debug>(result: Result<T, Failure>) -> String {
    match result {
        Err(Failure::Unfit(why)) => why,
        other => panic!("{other:?}"),
    }
}
