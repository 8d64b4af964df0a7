//! A small laboratory in memory.

use std::cell::RefCell;
use std::rc::Rc;

use design::{Design, Place, Question};
use session::{Answered, Issued, Session, Wanted};
use source::{Record, Value};

use super::memory::Rows;

/// Subjects on wards, their recordings, and events of these, with texts, numbers, a measure, a pair and issues.
pub const LABORATORY: &str = r#"design "Sleep"
table subject "subject {name}"
    id      key text issue holder
    ward    text
    show    name
table recording
    id      key integer
    subject text issue holder
table event
    name    key (recording, onset)
    recording integer
    onset   bigint
    seconds measure integer
    scorer  text
link subject.id -> recording.subject "is a night of"
link recording.id -> event.recording "was scored in"
load ward by subject.ward
load night by recording.id values 1..5000
question "Events of a ward" subject.ward = ? with recording, event
question "Seconds of a ward" subject.ward = ? with recording, event total event.seconds
question "Seconds of a night" event.recording = ? total event.seconds
question "A scorer's events" event.scorer = ?
"#;

pub fn text(text: &str) -> Option<Value> {
    Some(Value::Text(text.into()))
}

pub fn number(number: i64) -> Option<Value> {
    Some(Value::Number(number))
}

pub fn subject(id: &str, holder: u8, ward: &str, name: &str) -> Record {
    Record {
        table: 0,
        values: vec![text(id), text(ward)],
        issues: vec![holder, 0],
        shown: vec![Some(name.into())],
    }
}

pub fn recording(id: i64, subject: Option<(&str, u8)>) -> Record {
    Record {
        table: 1,
        values: vec![number(id), subject.and_then(|(id, _)| text(id))],
        issues: vec![0, subject.map_or(0, |(_, holder)| holder)],
        shown: vec![],
    }
}

pub fn event(recording: i64, onset: i64, seconds: Option<i64>, scorer: &str) -> Record {
    let name = Value::Tuple(vec![Value::Number(recording), Value::Number(onset)]);
    Record {
        table: 2,
        values: vec![
            Some(name),
            number(recording),
            number(onset),
            seconds.map(Value::Number),
            text(scorer),
        ],
        issues: vec![0; 5],
        shown: vec![],
    }
}

pub fn laboratory() -> (Design, Rows) {
    let mut rows = vec![
        subject("s1", 0, "nord", "Ann"),
        subject("s1", 1, "nord", "Bo"),
        subject("s2", 0, "west", "Cy"),
        recording(10, Some(("s1", 0))),
        recording(11, Some(("s1", 0))),
        recording(12, Some(("s1", 1))),
        recording(13, Some(("s2", 0))),
        recording(14, None),
    ];
    rows.extend([
        event(10, -1, Some(30), "x"),
        event(10, 2, Some(0), "x"),
        event(10, 3, None, "y"),
        event(12, 1, Some(12), "y"),
        event(13, 1, Some(4), "x"),
    ]);
    (super::read(LABORATORY), Rc::new(RefCell::new(rows)))
}

pub fn issued(text: &str) -> Issued {
    Value::Text(text.into()).into()
}

pub fn value(text: &str) -> Wanted {
    Wanted::Value(issued(text))
}

pub fn place(design: &Design, name: &str) -> Place {
    let asked = design::asked(design, &format!("{name} = x"));
    asked.expect(name).question.column
}

pub fn question<'d>(design: &'d Design, text: &str) -> &'d Question {
    let mut questions = design.questions.iter();
    questions
        .find(|question| question.text == text)
        .expect(text)
}

/// The keys of each list.
pub fn keys(session: &Session, answered: &Answered) -> Vec<Vec<String>> {
    let Answered::Lists(lists) = answered else {
        panic!("no lists: {answered:?}");
    };
    let keys: Vec<String> = session.rows_of(lists).map(|row| row.key.clone()).collect();
    keys.chunks(lists.tables.len())
        .map(<[String]>::to_vec)
        .collect()
}
