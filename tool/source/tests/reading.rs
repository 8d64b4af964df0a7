//! Rows as they are read: whole, by key, each value as the database has it, from one snapshot.

mod common;

use common::{at, fetched, has, opened, texts, unfit, Given};
use source::{label, Condition, Value};
use testing::{Lab, Server};

const LAB: &str = "
    CREATE TABLE ward (code text PRIMARY KEY NOT NULL, name text);
    CREATE TABLE recording (
        id bigint PRIMARY KEY NOT NULL, ward varchar(20), minutes bigint, note text,
        started timestamp, born date, urgent boolean, subject uuid
    );
    CREATE TABLE channel (recording integer NOT NULL, label text NOT NULL, big bigint, PRIMARY KEY (recording, label));
    INSERT INTO ward VALUES ('W-NORD', 'North'), ('W-SÜD', 'South'), ('w-nord', 'other');
    INSERT INTO recording VALUES
        (3, 'W-NORD', 0, 'c', '2025-03-08 22:00:00', '1970-01-01', true, '5d0c1f7a-0000-4000-8000-00000000abcd'),
        (1, 'W-NORD', 480, NULL, NULL, NULL, false, NULL),
        (2, NULL, NULL, 'b', '2025-03-09 22:00:00.25', '2025-02-28', NULL, NULL),
        (4294967295, 'w-nord', 4294967295, 'd', NULL, NULL, NULL, NULL);
    INSERT INTO channel VALUES (1, 'C3', -9223372036854775808), (1, 'C4', 9223372036854775807), (10, 'C3', NULL), (2, 'C3', 0);
";

const DESIGN: &str = r#"design "Reading"
table ward "ward {name}"
    code key text
    show name
table recording
    id      key integer
    ward    text
    minutes measure integer
    started timestamp
    born    date
    urgent  boolean
    subject uuid
    show    note
table channel "{label} of {recording}: {name}, {big}"
    name      key (recording, label)
    recording integer
    big       bigint
load ward by ward.code
link ward.code -> recording.ward
link recording.id -> channel.recording
"#;

/// The columns of `recording`.
const WARD: usize = 1;
const STARTED: usize = 3;
const BORN: usize = 4;
const URGENT: usize = 5;
const SUBJECT: usize = 6;

fn range(low: u32, high: u32) -> Condition {
    Condition::Range {
        column: at(1, 0),
        low,
        high,
    }
}

#[test]
fn rows_come_whole_and_by_key() {
    for lab in Lab::both(LAB) {
        let mut source = opened(&lab, DESIGN);
        let rows = fetched(&mut *source, &has(at(1, WARD), "W-NORD"));
        assert_eq!(texts(&rows, 0), ["1", "3"], "{}", lab.name());
        assert_eq!(rows[1].values[2], Some(Value::Number(0)));
        assert_eq!(rows[0].shown, [None]);
        assert_eq!(rows[1].shown, [Some("c".into())]);
        assert_eq!(rows[1].issues, [0; 7]);
        let written = |column: usize| texts(&rows[1..], column).concat();
        assert_eq!(written(STARTED), "2025-03-08 22:00:00");
        assert_eq!(written(BORN), "1970-01-01");
        assert_eq!(written(SUBJECT), "5d0c1f7a-0000-4000-8000-00000000abcd");
        assert_eq!(rows[1].values[URGENT], Some(Value::Boolean(true)));
        assert_eq!(rows[0].values[URGENT], Some(Value::Boolean(false)));
        assert_eq!(rows[0].values[STARTED..STARTED + 2], [None, None]);
        assert_eq!(source.size(), Ok(11));
    }
}

#[test]
fn every_type_is_asked_for() {
    for lab in Lab::both(LAB) {
        let mut source = opened(&lab, DESIGN);
        let mut keys = |column: usize, value: Given| {
            texts(&fetched(&mut *source, &has(at(1, column), value)), 0)
        };
        let uuid = "5d0c1f7a-0000-4000-8000-00000000abcd";
        assert_eq!(keys(0, 3.into()), ["3"], "{}", lab.name());
        assert_eq!(keys(WARD, "w-nord".into()), ["4294967295"]);
        assert_eq!(keys(WARD, "W-nord".into()), [""; 0]);
        assert_eq!(keys(WARD, "W-NORD ".into()), [""; 0]);
        assert_eq!(keys(STARTED, "2025-03-09 22:00:00.25".into()), ["2"]);
        assert_eq!(keys(BORN, "2025-02-28".into()), ["2"]);
        assert_eq!(keys(URGENT, true.into()), ["3"]);
        assert_eq!(keys(SUBJECT, uuid.into()), ["3"]);
        assert_eq!(keys(0, i64::MAX.into()), [""; 0]);
    }
}

/// Who asks for a value of another type means something else: that no row has it would be no answer.
#[test]
fn values_of_another_type_are_not_asked_for() {
    for lab in Lab::both(LAB) {
        let mut source = opened(&lab, DESIGN);
        for (column, value) in [
            (at(1, 0), Given::from("3")),
            (at(1, WARD), 3.into()),
            (at(1, WARD), true.into()),
            (at(1, URGENT), 1.into()),
            (at(1, 0), (1, 2).into()),
            (at(2, 0), 1.into()),
            (at(2, 0), ("1", "C3").into()),
        ] {
            let words = unfit(source.fetch(&has(column, value)));
            assert!(words.contains("is asked for what it can't have"), "{words}");
        }
        for column in [at(1, WARD), at(2, 0), at(2, 2)] {
            unfit(source.fetch(&Condition::Range {
                column,
                low: 1,
                high: 2,
            }));
        }
        let issued = Condition::Value {
            column: at(1, 0),
            value: Value::Number(3),
            issue: 1,
        };
        assert_eq!(fetched(&mut *source, &issued), []);
        assert_eq!(source.size(), Ok(11), "{}", lab.name());
    }
    let mut source = opened(&Lab::postgres(LAB), DESIGN);
    unfit(source.fetch(&has(at(1, WARD), "W-NORD\0")));
    unfit(source.fetch(&has(at(1, SUBJECT), "5d0c")));
}

#[test]
fn tuples_are_compared_part_by_part() {
    for lab in Lab::both(LAB) {
        let mut source = opened(&lab, DESIGN);
        let rows = fetched(&mut *source, &has(at(2, 0), (1, "C3")));
        assert_eq!(texts(&rows, 0), ["1|C3"], "{}", lab.name());
        assert_eq!(rows[0].values[2], Some(Value::Number(i64::MIN)));
        let found = source.with_key(2, &Given::from((1, "C4")).0);
        let found = found.expect("a row").expect("one row");
        assert_eq!(found.values[2], Some(Value::Number(i64::MAX)));
        assert_eq!(source.with_key(2, &Given::from((1, "C5")).0), Ok(None));
    }
}

/// PostgreSQL's `integer` ends at 2,147,483,647; what is above is no mistake to ask for, and no row's.
#[test]
fn a_number_that_is_too_large_for_the_column() {
    for lab in Lab::both(LAB) {
        let mut source = opened(&lab, DESIGN);
        let large = has(at(2, 1), i64::from(u32::MAX));
        assert_eq!(fetched(&mut *source, &large), [], "{}", lab.name());
        let range = Condition::Range {
            column: at(2, 1),
            low: 1,
            high: u32::MAX,
        };
        assert_eq!(fetched(&mut *source, &range).len(), 4);
    }
}

#[test]
fn ranges_count_both_ends() {
    for lab in Lab::both(LAB) {
        let mut source = opened(&lab, DESIGN);
        let mut keys = |low, high| texts(&fetched(&mut *source, &range(low, high)), 0);
        assert_eq!(keys(2, u32::MAX), ["2", "3", "4294967295"]);
        assert_eq!(keys(1, 2), ["1", "2"]);
        assert_eq!(keys(4, u32::MAX - 1), [""; 0]);
    }
}

#[test]
fn the_lowest_values_are_listed_once() {
    for lab in Lab::both(LAB) {
        let mut source = opened(&lab, DESIGN);
        let mut listed = |column, most| {
            let values = source.values(column, most).expect("values");
            let texts = values
                .iter()
                .map(|(value, issue)| format!("{value}/{issue}"));
            texts.collect::<Vec<_>>()
        };
        assert_eq!(listed(at(1, WARD), 9), ["W-NORD/0", "w-nord/0"]);
        assert_eq!(listed(at(1, 0), 2), ["1/0", "2/0"]);
        assert_eq!(
            listed(at(2, 0), 9),
            ["1|C3/0", "1|C4/0", "2|C3/0", "10|C3/0"]
        );
        assert_eq!(listed(at(1, URGENT), 9), ["false/0", "true/0"]);
    }
}

#[test]
fn texts_mean_values() {
    for lab in Lab::both(LAB) {
        let mut source = opened(&lab, DESIGN);
        let mut meant = |column, texts: &[&str]| source.meant(column, texts);
        assert_eq!(meant(at(1, 0), &["7"]), Ok(Value::Number(7)));
        assert_eq!(meant(at(1, WARD), &["7"]), Ok(Value::Text("7".into())));
        assert_eq!(meant(at(1, URGENT), &["true"]), Ok(Value::Boolean(true)));
        assert_eq!(meant(at(2, 0), &["7", "8"]), Ok(Given::from((7, "8")).0));
        for (column, texts) in [
            (at(1, 0), &["x"] as &[&str]),
            (at(1, 0), &["0"]),
            (at(1, 0), &["4294967296"]),
            (at(1, 0), &["1", "2"]),
            (at(1, BORN), &["yesterday"]),
            (at(1, STARTED), &["2025-03-08"]),
            (at(1, URGENT), &["perhaps"]),
            (at(1, SUBJECT), &["5d0c"]),
            (at(2, 0), &["7"]),
            (at(2, 0), &["x", "8"]),
        ] {
            unfit(meant(column, texts));
        }
        // nothing of that ends the snapshot
        assert_eq!(source.size(), Ok(11), "{}", lab.name());
    }
}

#[test]
fn texts_mean_what_postgresql_writes() {
    let lab = Lab::postgres(LAB);
    let mut source = opened(&lab, DESIGN);
    let upper = "5D0C1F7A-0000-4000-8000-00000000ABCD";
    for (column, text, written) in [
        (SUBJECT, upper, "5d0c1f7a-0000-4000-8000-00000000abcd"),
        (STARTED, "2025-03-08T22:00", "2025-03-08 22:00:00"),
        (STARTED, "2025-03-09 22:00:00.250", "2025-03-09 22:00:00.25"),
        (BORN, "2025-02-28", "2025-02-28"),
    ] {
        let meant = source.meant(at(1, column), &[text]);
        assert_eq!(meant, Ok(Value::Text(written.into())), "{text}");
    }
    unfit(source.meant(at(1, BORN), &["2025-02-30"]));
    // a text that isn't the database's own is never taken for another value
    unfit(source.fetch(&has(at(1, SUBJECT), upper)));
    unfit(source.fetch(&has(at(1, BORN), "2025-02-30")));
    assert_eq!(source.size(), Ok(11));
}

#[test]
fn timestamps_with_a_zone_are_read_in_utc() {
    let lab = Lab::postgres(
        "SELECT format('ALTER DATABASE %I SET TimeZone = ''Asia/Tokyo''', current_database()) \\gexec
         CREATE TABLE night (id bigint PRIMARY KEY, started timestamptz);
         INSERT INTO night VALUES (1, '2025-03-08 23:00:00+01'), (2, '2025-03-08 22:00:00+00'), (3, '2025-03-08 22:00:00.5-05:30'), (4, 'infinity');",
    );
    let text = "design \"Nights\"\ntable night\n    id key bigint\n    started timestamp\nload at by night.started\n";
    let mut source = opened(&lab, text);
    let value = source.meant(at(0, 1), &["2025-03-09 00:00+02:00"]);
    let value = value.expect("a time");
    assert_eq!(value, Value::Text("2025-03-08 22:00:00+00".into()));
    let condition = Condition::Value {
        column: at(0, 1),
        value,
        issue: 0,
    };
    assert_eq!(texts(&fetched(&mut *source, &condition), 0), ["1", "2"]);
    let listed = source.values(at(0, 1), 9).expect("values");
    let listed: Vec<String> = listed.iter().map(|(value, _)| value.to_string()).collect();
    assert_eq!(
        listed,
        [
            "2025-03-08 22:00:00+00",
            "2025-03-09 03:30:00.5+00",
            "infinity"
        ]
    );
}

#[test]
fn labels_have_values_shown_names_and_parts() {
    for lab in Lab::both(LAB) {
        let reading = design::read(DESIGN);
        let tables = reading.design.expect("a design").tables;
        let mut source = opened(&lab, DESIGN);
        let mut called = |table: usize, key: Given| {
            let record = source.with_key(table, &key.0).expect("rows");
            label(&tables[table], &record.expect("a row"))
        };
        assert_eq!(called(0, "W-SÜD".into()), "ward South");
        assert_eq!(called(1, 3.into()), "recording 3");
        assert_eq!(called(2, (10, "C3").into()), "C3 of 10: 10|C3, -");
    }
}

#[test]
fn a_change_is_seen_after_a_refresh_alone() {
    // in other modes of SQLite a reader keeps writers waiting
    let [sqlite, postgres] = Lab::both(LAB);
    sqlite.run("PRAGMA journal_mode = WAL");
    for lab in [sqlite, postgres] {
        let mut source = opened(&lab, DESIGN);
        let north = has(at(1, WARD), "W-NORD");
        lab.run("UPDATE recording SET ward = 'W-SÜD' WHERE id = 1; INSERT INTO recording (id, ward) VALUES (9, 'W-NORD'); DELETE FROM ward WHERE code = 'w-nord'");
        assert_eq!(texts(&fetched(&mut *source, &north), 0), ["1", "3"]);
        assert_eq!(source.size(), Ok(11));
        assert_eq!(source.refresh(), Ok(()), "{}", lab.name());
        assert_eq!(texts(&fetched(&mut *source, &north), 0), ["3", "9"]);
        assert_eq!(source.size(), Ok(11));
    }
}

#[test]
fn a_refresh_holds_the_design_to_the_catalog_again() {
    let [sqlite, postgres] = Lab::both(LAB);
    sqlite.run("PRAGMA journal_mode = WAL");
    for lab in [sqlite, postgres] {
        let mut source = opened(&lab, DESIGN);
        source.refresh().expect("nothing has changed");
        match &lab {
            Lab::Sqlite(_) => lab.run("ALTER TABLE channel RENAME COLUMN big TO small"),
            // the tables are locked against such a change as long as a snapshot lasts, and not what the search path finds before them
            Lab::Postgres(_) => lab.run(
                "CREATE SCHEMA postgres; CREATE TABLE postgres.channel (recording bigint, label text, PRIMARY KEY (recording, label))",
            ),
        }
        assert_eq!(source.size(), Ok(11));
        let why = unfit(source.refresh());
        assert!(why.contains("`channel` has no column `big`"), "{why}");
        assert_eq!(unfit(source.size()), why);
        assert_eq!(unfit(source.refresh()), why);
    }
}

/// A table that is emptied and filled anew by somebody else, while it is opened, is seen before or after that, and never empty.
#[test]
fn tables_are_locked_before_the_snapshot() {
    let lab = Lab::postgres(LAB);
    let Lab::Postgres(name) = &lab else {
        unreachable!("a database on the server");
    };
    let mut other = Server::start().session(name);
    other.run("BEGIN; TRUNCATE recording; INSERT INTO recording (id, ward) VALUES (5, 'W-NORD')");
    let keys = std::thread::scope(|scope| {
        let reading = scope.spawn(|| {
            let mut source = opened(&lab, DESIGN);
            texts(&fetched(&mut *source, &has(at(1, WARD), "W-NORD")), 0)
        });
        let waiting = "SELECT count(*) FROM pg_locks WHERE NOT granted AND database = (SELECT oid FROM pg_database WHERE datname = current_database())";
        while lab.rows(waiting) != [[Some("1".to_string())]] {
            assert!(!reading.is_finished(), "it doesn't wait");
        }
        other.run("COMMIT");
        reading.join().expect("rows")
    });
    assert_eq!(keys, ["5"]);
}

#[test]
fn the_time_of_the_snapshot_is_told() {
    for lab in Lab::both(LAB) {
        let source = opened(&lab, DESIGN);
        let taken = source.taken();
        let digits = taken.bytes().filter(u8::is_ascii_digit).count();
        assert_eq!((taken.len(), digits), (19, 14), "{}: {taken}", lab.name());
        assert_eq!(&taken[10..11], " ");
    }
}

#[test]
fn a_table_can_stand_in_a_design_twice() {
    for lab in Lab::both(LAB) {
        let text = "design \"Twice\"
table ward
    code key text
table station from ward
    code key text
    show name
link ward.code -> station.code
load ward by ward.code
";
        let mut source = opened(&lab, text);
        let rows = fetched(&mut *source, &has(at(1, 0), "W-SÜD"));
        assert_eq!(rows[0].shown, [Some("South".into())]);
        assert_eq!(source.size(), Ok(6));
    }
}

/// Whole, without a limit.
#[test]
fn many_rows_come_at_once() {
    let rows: Vec<String> = (1..=5000).map(|id| format!("({id}, 'all')")).collect();
    let statements = format!(
        "CREATE TABLE event (id bigint PRIMARY KEY, kind text); INSERT INTO event VALUES {}",
        rows.join(", ")
    );
    for lab in Lab::both(&statements) {
        let text =
            "design \"Many\"\ntable event\n    id key bigint\n    kind text\nload kind by event.kind\n";
        let rows = fetched(&mut *opened(&lab, text), &has(at(0, 1), "all"));
        assert_eq!(rows.len(), 5000, "{}", lab.name());
    }
}
