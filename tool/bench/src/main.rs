//! How fast a session answers what is cached, keys and labels included, beside SQLite's own answer in process and PostgreSQL's over a local socket; and what a load
//! costs beside its SELECTs. Prints the tables of docs/BENCHMARKS.md.
//!
//! A session's answer lends its keys and labels, as a result of PostgreSQL's library does. SQLite lends a row's values until the next row, so that they are copied.
//!
//! In process it is the processor time of this thread, and of many runs the fastest. A server works in a process of its own: there it is the time until
//! the answer is there, as `psql` tells it, and of many runs the fastest.

mod laboratory;

use std::borrow::Cow;
use std::hint::black_box;
use std::time::Duration;

use bench::clock::thread_time;
use design::{Design, Word};
use laboratory::Laboratory;
use rusqlite::Statement;
use session::{Answered, Session, Wanted};
use source::{Condition, Source};
use testing::Recorded;

/// How often each is measured, and how many runs in a row.
const RUNS: usize = 20_000;
const ROW: usize = 20;

/// How often each is measured on a server.
const SERVER_RUNS: usize = 300;

/// The questions, each with a value, and what it is in SQL, with `?1` for the value: the key and the label at each position.
const QUESTIONS: [(&str, &str, &str); 5] = [
    ("Find a hospital number", "H-10007",
     "SELECT s.id, 'subject ' || s.hospital_no || ' (' || s.name || ')' FROM subject s WHERE s.hospital_no = ?1"),
    ("Channels of a night", "50001",
     "SELECT c.recording_id || '|' || c.label, 'channel ' || c.label || ' of recording ' || c.recording_id FROM channel c WHERE c.recording_id = ?1"),
    ("Who scored this night", "50003",
     "SELECT c.recording_id || '|' || c.scorer_id, 'scoring of recording ' || c.recording_id, s.id, s.role || ' ' || s.name FROM scoring c JOIN staff s ON s.id = c.scorer_id WHERE c.recording_id = ?1"),
    ("Nights and events of a ward", "W-NORD",
     "SELECT s.id, 'subject ' || s.hospital_no || ' (' || s.name || ')', r.id, 'recording ' || r.id || ' of ' || r.started_at, e.id, e.kind || ' at ' || e.onset_ms || ' ms in recording ' || e.recording_id FROM subject s JOIN recording r ON r.subject_id = s.id JOIN event e ON e.recording_id = r.id WHERE s.ward_code = ?1"),
    ("Apnoea seconds of a ward", "W-NORD",
     "SELECT coalesce(sum(e.duration_s), 0) FROM subject s JOIN recording r ON r.subject_id = s.id JOIN event e ON e.recording_id = r.id WHERE s.ward_code = ?1"),
];

/// What is loaded, each on an empty desk.
const LOADS: [(&str, &str); 3] = [
    ("night", "50030"),
    ("ward", "W-NORD"),
    ("night", "50001..50012"),
];

fn main() {
    let laboratory = Laboratory::make();
    let design = laboratory.design();
    let mut source = laboratory.source(&design);
    let mut session = Session::open(&design, &mut *source).expect("a session");
    load(&mut session, &design, "ward", "W-NORD");
    println!(
        "| Question, on what is cached | Lists | Session | SQLite | times | PostgreSQL | times |"
    );
    println!("|---|---|---|---|---|---|---|");
    for (text, value, sql) in QUESTIONS {
        question(&laboratory, &mut session, &design, text, value, sql);
    }
    drop(session);
    println!();
    println!("| Load | Rows | SELECTs | Load | SELECTs alone | times |");
    println!("|---|---|---|---|---|---|");
    for (name, value) in LOADS {
        cost(&mut *source, &design, name, value);
    }
}

/// The fastest of some runs. Each is some in a row, since the clock itself takes a third of a microsecond.
fn fastest(runs: usize, mut run: impl FnMut()) -> Duration {
    let times = (0..runs / ROW).map(|_| {
        let begun = thread_time();
        (0..ROW).for_each(|_| run());
        (thread_time() - begun) / ROW as u32
    });
    times.min().unwrap_or_default()
}

fn wanted(session: &mut Session, design: &Design, name: &str, value: &str) -> (usize, Wanted) {
    let load = design.loads.iter().position(|load| load.name == name);
    let load = load.expect("a load of the design");
    let wanted = session.wanted(load, &Word::plain(value));
    (load, wanted.expect("a value"))
}

fn load(session: &mut Session, design: &Design, name: &str, value: &str) -> usize {
    let (load, wanted) = wanted(session, design, name, value);
    session.load(load, &wanted).expect("it fits");
    session.cached().count()
}

/// An answer's keys and labels.
fn texts<'a>(session: &'a Session, answered: &'a Answered) -> Vec<[Cow<'a, str>; 2]> {
    match answered {
        Answered::Lists(lists) => {
            let rows = session.rows_of(lists);
            rows.map(|row| [row.key.as_str().into(), row.label.as_str().into()])
                .collect()
        }
        Answered::Total(total) => vec![[total.to_string().into(), "".into()]],
        Answered::Sent => panic!("it isn't cached"),
    }
}

/// How many lists an answer has.
fn count(answered: &Answered) -> usize {
    match answered {
        Answered::Lists(lists) => lists.lists.len(),
        _ => 1,
    }
}

/// The rows of a statement in a text, and how many they are.
fn selected(statement: &mut Statement, value: &str, text: &mut String) -> usize {
    let width = statement.column_count();
    let mut rows = statement.query([value]).expect("a query");
    let mut count = 0;
    while let Some(row) = rows.next().expect("a row") {
        for column in 0..width {
            match row.get_ref(column).expect("a value") {
                rusqlite::types::ValueRef::Text(bytes) => {
                    text.push_str(std::str::from_utf8(bytes).expect("text"))
                }
                rusqlite::types::ValueRef::Integer(number) => text.push_str(&number.to_string()),
                other => panic!("{other:?}"),
            }
        }
        count += 1;
    }
    count
}

/// The characters of a text in their order: two answers in different orders have the same.
fn sorted(text: &str) -> Vec<char> {
    let mut characters: Vec<char> = text.chars().collect();
    characters.sort_unstable();
    characters
}

fn question(
    laboratory: &Laboratory,
    session: &mut Session,
    design: &Design,
    text: &str,
    value: &str,
    sql: &str,
) {
    let mut questions = design.questions.iter();
    let question = questions
        .find(|question| question.text == text)
        .expect(text);
    let issued = session
        .read(question.column, &Word::plain(value))
        .expect(value);
    let connection = laboratory.connection();
    let mut statement = connection.prepare(sql).expect(sql);
    let mut theirs = String::new();
    let answered = session.ask(question, &issued).expect("it is cached");
    let (ours, lists) = (texts(session, &answered), count(&answered));
    assert_eq!(
        lists,
        selected(&mut statement, value, &mut theirs),
        "{text}"
    );
    assert_eq!(sorted(&ours.concat().concat()), sorted(&theirs), "{text}");
    let mut buffer = String::with_capacity(1 << 20);
    let here = fastest(RUNS, || {
        let answered = session.ask(question, &issued).expect("it is cached");
        black_box(texts(session, &answered));
    });
    let sqlite = fastest(RUNS, || {
        buffer.clear();
        selected(&mut statement, value, &mut buffer);
    });
    let postgres = laboratory.fastest_on_the_server(sql, value, SERVER_RUNS);
    println!(
        "| {text} | {lists} | {} | {} | {:.1} | {} | {:.0} |",
        shown(here),
        shown(sqlite),
        times(sqlite, here),
        shown(postgres),
        times(postgres, here)
    );
}

/// The SELECTs of a load on an empty desk.
fn selects(source: &mut dyn Source, design: &Design, name: &str, value: &str) -> Vec<Condition> {
    let mut recorded = Recorded::new(source);
    let mut session = Session::open(design, &mut recorded).expect("a session");
    load(&mut session, design, name, value);
    recorded.fetched().take()
}

fn cost(source: &mut dyn Source, design: &Design, name: &str, value: &str) {
    let conditions = selects(source, design, name, value);
    let mut session = Session::open(design, source).expect("a session");
    let rows = load(&mut session, design, name, value);
    let (number, wanted) = wanted(&mut session, design, name, value);
    let whole = fastest(RUNS / 20, || {
        session.clear().expect("an empty desk");
        session.load(number, &wanted).expect("it fits");
    });
    let clearing = fastest(RUNS / 20, || session.clear().expect("an empty desk"));
    drop(session);
    let selects = fastest(RUNS / 20, || {
        for condition in &conditions {
            source.fetch(condition).expect("it can be read");
        }
    });
    let whole = whole.saturating_sub(clearing);
    println!(
        "| `{name}={value}` | {rows} | {} | {} | {} | {:.1} |",
        conditions.len(),
        shown(whole),
        shown(selects),
        times(whole, selects)
    );
}

fn times(more: Duration, less: Duration) -> f64 {
    more.as_secs_f64() / less.as_secs_f64()
}

fn shown(time: Duration) -> String {
    match time.as_nanos() {
        0..=999_999 => format!("{:.1} µs", time.as_secs_f64() * 1e6),
        _ => format!("{:.2} ms", time.as_secs_f64() * 1e3),
    }
}
