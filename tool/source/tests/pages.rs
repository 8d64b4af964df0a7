//! The pages of what only a database can show, held to databases.

mod common;

use common::{open, told};
use design::{Code, Severity};
use source::NotOpened;
use testing::{Lab, Server};

/// The database of a page, and as whom it is read.
fn lab(statements: &str, kind: &str) -> (Lab, Option<String>) {
    match kind.split_once(", as ") {
        None if kind == "SQLite" => (Lab::sqlite(statements), None),
        None => (Lab::postgres(statements), None),
        Some((_, user)) => (Lab::postgres(statements), Some(user.into())),
    }
}

/// The codes and places of what is told of a design.
fn found(lab: &Lab, user: Option<&str>, text: &str) -> Vec<String> {
    let opened = match (lab, user) {
        (Lab::Postgres(name), Some(user)) => {
            let mut place = lab.source();
            let conninfo = Server::start().conninfo(name);
            place.place = conninfo.replace("user=postgres", &format!("user={user}"));
            let reading = design::read(text);
            source::open(&place, &reading.design.expect(text), &reading.spans)
        }
        _ => open(lab, text),
    };
    let problems = match opened {
        Ok(opened) => opened.warnings,
        Err(NotOpened::Problems(problems)) => problems,
        Err(NotOpened::Unreadable(why)) => panic!("{why}"),
    };
    let place = |problem| {
        told(problem, text)
            .split(": ")
            .next()
            .unwrap_or("")
            .to_string()
    };
    problems.iter().map(place).collect()
}

#[test]
fn the_examples_hold() {
    let mut seen = 0;
    for code in Code::ALL {
        let page = code.page();
        let Some((statements, kind)) = page.database() else {
            continue;
        };
        if *code == Code::E004 {
            continue; // a load shows it, beside the program that loads
        }
        let (lab, user) = lab(&statements, kind);
        let (wrong, place) = page.wrong().expect("an example");
        let mistakes = found(&lab, user.as_deref(), &wrong);
        // a column that isn't unique is warned of before it is refused, and then the refusal alone is told
        let expected = [format!("{} at {place}", code.name())];
        assert_eq!(mistakes, expected, "{}", code.name());
        let right = page.right().expect("an example");
        let left = found(&lab, user.as_deref(), &right);
        let errors = left.iter().filter(|left| left.starts_with('E'));
        assert_eq!(errors.count(), 0, "{}: {left:?}", code.name());
        if code.severity() == Severity::Warning {
            assert_eq!(left, [""; 0], "{}", code.name());
        }
        seen += 1;
    }
    assert_eq!(seen, 13);
}
