//! Keys, unique columns and issues: what an index makes sure, what is counted, and what is refused.

mod common;

use common::{at, fetched, has, open, opened, problem, problems, texts, told, unfit};
use source::{Condition, NotOpened, Value};
use testing::Lab;

const DESIGN: &str = "design \"Unique\"
table subject \"subject {id} ({name})\"
    id   key bigint
    no   unique text
    show name
load no by subject.no
";

const TABLE: &str = "CREATE TABLE subject (id bigint PRIMARY KEY NOT NULL, no text, name text, gone text);
    INSERT INTO subject VALUES (1, 'H-1', 'One', NULL), (2, 'H-2', 'Two', NULL), (3, NULL, 'Three', NULL), (4, NULL, 'Four', NULL);";

/// The codes and notes of the warnings.
fn warnings(lab: &Lab, text: &str) -> Vec<(String, Vec<String>)> {
    let Ok(opened) = open(lab, text) else {
        panic!("{} isn't open", lab.name());
    };
    let warnings = opened.warnings.into_iter();
    warnings
        .map(|warning| (told(&warning, text), warning.notes))
        .collect()
}

#[test]
fn a_unique_index_is_enough() {
    for index in [
        "CREATE UNIQUE INDEX i ON subject (no)",
        "CREATE UNIQUE INDEX i ON subject (no DESC)",
        "ALTER TABLE subject ADD UNIQUE (no)",
    ] {
        // SQLite adds no constraints to tables
        let labs = match index.starts_with("ALTER") {
            true => vec![Lab::postgres(&format!("{TABLE} {index}"))],
            false => Lab::both(&format!("{TABLE} {index}")).into(),
        };
        for lab in labs {
            assert_eq!(warnings(&lab, DESIGN), [], "{}: {index}", lab.name());
        }
    }
}

#[test]
fn an_index_that_says_nothing_of_every_row() {
    let weak = "its unique index";
    for (index, words) in [
        ("", ""),
        ("CREATE INDEX i ON subject (no)", ""),
        ("CREATE UNIQUE INDEX i ON subject (no, name)", ""),
        (
            "CREATE UNIQUE INDEX i ON subject (no) WHERE gone IS NULL",
            "has a condition (WHERE",
        ),
        (
            "CREATE UNIQUE INDEX i ON subject (lower(no))",
            "is on an expression",
        ),
    ] {
        for lab in Lab::both(&format!("{TABLE} {index}")) {
            let warnings = warnings(&lab, DESIGN);
            let [(told, notes)] = &warnings[..] else {
                panic!("{}: {index}: {warnings:?}", lab.name());
            };
            assert_eq!(
                told,
                "W05 at 4:5: subject.no is unique here, and no index of the database makes it so"
            );
            let noted = notes
                .iter()
                .any(|note| note.starts_with(&format!("{weak} {words}")));
            assert_eq!(noted, !words.is_empty(), "{}: {notes:?}", lab.name());
        }
    }
    for (index, words) in [
        (
            "ALTER TABLE subject ADD UNIQUE (no) DEFERRABLE",
            "is deferrable",
        ),
        (
            "ALTER TABLE subject ADD UNIQUE (no) DEFERRABLE INITIALLY DEFERRED",
            "is deferrable",
        ),
    ] {
        let warnings = warnings(&Lab::postgres(&format!("{TABLE} {index}")), DESIGN);
        assert_eq!(warnings[0].1[0], format!("{weak} {words}"));
    }
}

#[test]
fn a_table_from_which_others_inherit() {
    let lab = Lab::postgres(&format!(
        "{TABLE} CREATE UNIQUE INDEX i ON subject (no); CREATE TABLE animal () INHERITS (subject)"
    ));
    let warned = warnings(&lab, DESIGN);
    let places: Vec<&str> = warned.iter().map(|(told, _)| &told[..10]).collect();
    assert_eq!(places, ["W05 at 3:5", "W05 at 4:5"]);
    lab.run("INSERT INTO animal VALUES (2, 'H-9', 'Cat', NULL)");
    let told = problem(&lab, DESIGN);
    assert_eq!(
        told,
        "E006 at 3:5: subject.id is the key, but two rows have \"2\""
    );
    let partitioned = Lab::postgres(
        "CREATE TABLE subject (id bigint PRIMARY KEY, no text, name text) PARTITION BY RANGE (id);
         CREATE TABLE low PARTITION OF subject FOR VALUES FROM (0) TO (9)",
    );
    assert_eq!(warnings(&partitioned, DESIGN).len(), 1);
}

#[test]
fn a_value_twice() {
    for lab in Lab::both(&format!(
        "{TABLE} INSERT INTO subject VALUES (5, 'H-2', 'Five', NULL), (6, 'H-2', 'Six', NULL)"
    )) {
        let problems = problems(&lab, DESIGN);
        assert_eq!(
            told(&problems[0], DESIGN),
            "E006 at 4:5: subject.no is declared unique, but two rows have \"H-2\""
        );
        assert_eq!(
            problems[0].notes,
            ["subject 2 (Two) and subject 5 (Five), and 1 more"]
        );
        assert_eq!(problems.len(), 1, "{}", lab.name());
    }
}

#[test]
fn a_value_twice_after_a_refresh() {
    let [sqlite, postgres] = Lab::both(TABLE);
    sqlite.run("PRAGMA journal_mode = WAL");
    for lab in [sqlite, postgres] {
        let Ok(mut opened) = open(&lab, DESIGN) else {
            panic!("{} isn't open", lab.name());
        };
        lab.run("INSERT INTO subject VALUES (5, 'H-2', 'Five', NULL)");
        let rows = fetched(&mut *opened.source, &has(at(0, 1), "H-2"));
        assert_eq!(texts(&rows, 0), ["2"]);
        let why = unfit(opened.source.refresh());
        assert_eq!(why, "subject.no is declared unique, but two rows have \"H-2\" (E006); subject 2 (Two) and subject 5 (Five)");
        assert_eq!(unfit(opened.source.fetch(&has(at(0, 1), "H-1"))), why);
    }
}

#[test]
fn keys_of_several_columns() {
    let text = "design \"Tuples\"\ntable t\n    name key (a, b)\nload t by t.name\n";
    for (statements, codes) in [
        (
            "CREATE TABLE t (a integer NOT NULL, b text NOT NULL, PRIMARY KEY (b, a))",
            vec![],
        ),
        (
            "CREATE TABLE t (a integer NOT NULL, b text NOT NULL UNIQUE)",
            vec![],
        ),
        (
            "CREATE TABLE t (a integer NOT NULL, b text NOT NULL, c integer, UNIQUE (a, b, c))",
            vec!["W05"],
        ),
        (
            "CREATE TABLE t (a integer, b text, UNIQUE (a, b)); INSERT INTO t VALUES (1, NULL)",
            vec!["E032"],
        ),
        (
            "CREATE TABLE t (a integer, b text); INSERT INTO t VALUES (1, 'x'), (1, 'y'), (1, 'x')",
            vec!["E006"],
        ),
    ] {
        for lab in Lab::both(statements) {
            let told = match open(&lab, text) {
                Ok(opened) => opened.warnings,
                Err(NotOpened::Problems(problems)) => problems,
                Err(NotOpened::Unreadable(why)) => panic!("{why}"),
            };
            let told: Vec<&str> = told.iter().map(|problem| problem.code.name()).collect();
            assert_eq!(told, codes, "{}: {statements}", lab.name());
        }
    }
}

#[test]
fn a_key_of_null() {
    let lab = Lab::sqlite("CREATE TABLE subject (id bigint PRIMARY KEY, no text UNIQUE, name text); INSERT INTO subject (no) VALUES ('H-1')");
    assert_eq!(
        problem(&lab, DESIGN),
        "E032 at 3:5: subject.id is the key, and a row has NULL there"
    );
    let lab = Lab::postgres("CREATE TABLE subject (id bigint UNIQUE, no text UNIQUE, name text); INSERT INTO subject (no) VALUES ('H-1')");
    assert_eq!(
        problem(&lab, DESIGN),
        "E032 at 3:5: subject.id is the key, and a row has NULL there"
    );
    // a number of SQLite's rows is never NULL
    let lab = Lab::sqlite("CREATE TABLE subject (id integer PRIMARY KEY, no text UNIQUE, name text); INSERT INTO subject (no) VALUES ('H-1')");
    opened(&lab, DESIGN);
}

const ISSUES: &str = "design \"Issues\"
table subject
    id key bigint
    no unique integer issue issue_no
load no by subject.no
";

fn issued(rows: &str, index: &str) -> String {
    format!("CREATE TABLE subject (id bigint PRIMARY KEY NOT NULL, no bigint, issue_no smallint{index}); INSERT INTO subject VALUES {rows}")
}

fn asked(no: i64, issue: u8) -> Condition {
    Condition::Value {
        column: at(0, 1),
        value: Value::Number(no),
        issue,
    }
}

#[test]
fn a_number_given_again_is_another_value() {
    let rows =
        "(1, 7, 0), (2, 7, 1), (3, 7, 255), (4, NULL, NULL), (5, NULL, 3), (6, 8, 0), (7, 9, 1)";
    for lab in Lab::both(&issued(rows, ", UNIQUE (no, issue_no)")) {
        let mut source = opened(&lab, ISSUES);
        for (issue, id) in [(0, "1"), (1, "2"), (255, "3")] {
            let rows = fetched(&mut *source, &asked(7, issue));
            assert_eq!(texts(&rows, 0), [id], "{}", lab.name());
            assert_eq!(rows[0].issues, [0, issue]);
        }
        assert_eq!(fetched(&mut *source, &asked(7, 2)), []);
        // a blank has no issue
        let blank = source.with_key(0, &Value::Number(5)).expect("rows");
        let blank = blank.expect("a row");
        assert_eq!((&blank.values[1], blank.issues[1]), (&None, 0));
        let range = Condition::Range {
            column: at(0, 1),
            low: 1,
            high: 9,
        };
        assert_eq!(texts(&fetched(&mut *source, &range), 0), ["1", "6"]);
        let values = source.values(at(0, 1), 9).expect("values");
        let values: Vec<String> = values
            .iter()
            .map(|(value, issue)| format!("{value}/{issue}"))
            .collect();
        assert_eq!(values, ["7/0", "7/1", "7/255", "8/0", "9/1"]);
    }
}

/// Rows of a key with issues are told apart by both, and come in the order of both.
#[test]
fn a_key_with_issues() {
    let text = "design \"Issues\"\ntable subject\n    no key integer issue issue_no\n    ward text\nload ward by subject.ward\n";
    for lab in Lab::both(
        "CREATE TABLE subject (no bigint NOT NULL, issue_no integer NOT NULL, ward text, PRIMARY KEY (no, issue_no));
         INSERT INTO subject VALUES (8, 0, 'W'), (7, 2, 'W'), (7, 0, 'W'), (7, 1, 'W')",
    ) {
        let mut source = opened(&lab, text);
        let rows = fetched(&mut *source, &has(at(0, 1), "W"));
        let keys: Vec<String> = rows
            .iter()
            .map(|row| format!("{}/{}", texts(std::slice::from_ref(row), 0)[0], row.issues[0]))
            .collect();
        assert_eq!(keys, ["7/0", "7/1", "7/2", "8/0"], "{}", lab.name());
        let first = source.with_key(0, &Value::Number(7)).expect("rows");
        assert_eq!(first.expect("a row").issues, [0, 0]);
    }
}

#[test]
fn issues_that_are_none() {
    for (row, wrong) in [
        ("(1, 7, NULL)", "has the issue NULL in issue_no, and a number that isn't NULL has an issue from 0 to 255"),
        ("(1, 7, 256)", "has the issue 256 in issue_no, and an issue is a number from 0 to 255"),
        ("(1, 7, -1)", "has the issue -1 in issue_no, and an issue is a number from 0 to 255"),
    ] {
        for lab in Lab::both(&issued(row, ", UNIQUE (no, issue_no)")) {
            let mut source = opened(&lab, ISSUES);
            let words = format!("subject 1: subject.no {wrong} (E031)");
            assert_eq!(unfit(source.fetch(&has(at(0, 0), 1))), words, "{}", lab.name());
            if row.contains("NULL") {
                assert_eq!(unfit(source.fetch(&asked(7, 0))), words);
            }
        }
    }
}

#[test]
fn an_issue_twice() {
    for lab in Lab::both(&issued("(1, 7, 3), (2, 7, 3)", "")) {
        let told = problem(&lab, ISSUES);
        assert_eq!(
            told,
            "E006 at 4:5: subject.no is declared unique, but two rows have \"7\" of issue 3",
            "{}",
            lab.name()
        );
    }
    // an index on the number alone says more than is needed
    for lab in Lab::both(&issued("(1, 7, 3)", ", UNIQUE (no)")) {
        opened(&lab, ISSUES);
    }
}
