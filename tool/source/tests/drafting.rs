//! Drafts of designs: they are designs as they stand, fit the database that they are from, and stay so with whichever links are chosen.

mod common;

use common::{open, opened};
use design::{Severity, MOST_LINKS};
use testing::Lab;

const LAB: &str = "
    CREATE TABLE staff (id uuid PRIMARY KEY NOT NULL, name text, role text, supervisor_id uuid REFERENCES staff);
    CREATE TABLE ward (code text PRIMARY KEY NOT NULL, name text);
    CREATE TABLE subject (
        id uuid PRIMARY KEY NOT NULL, hospital_no text UNIQUE, insurance_no text, ward_code text REFERENCES ward, physician_id uuid REFERENCES staff,
        name text, born date, consent boolean, weight real, note text, deleted date
    );
    CREATE UNIQUE INDEX living ON subject (insurance_no) WHERE deleted IS NULL;
    CREATE TABLE recording (id integer PRIMARY KEY NOT NULL, subject_id uuid REFERENCES subject (id), started_at timestamp);
    CREATE TABLE channel (recording_id integer NOT NULL REFERENCES recording, label text NOT NULL, gain real, PRIMARY KEY (label, recording_id));
    CREATE TABLE event (
        id bigint PRIMARY KEY NOT NULL, recording_id integer REFERENCES recording, channel_label text, kind text,
        FOREIGN KEY (recording_id, channel_label) REFERENCES channel (recording_id, label)
    );
    CREATE VIEW apnoea AS SELECT * FROM event WHERE kind = 'apnoea';
    CREATE TABLE log (message text);
    INSERT INTO ward VALUES ('W-NORD', 'North'), ('W-SÜD', 'South');
    INSERT INTO subject (id, ward_code) VALUES
        ('00000000-0000-0000-0000-000000000001', 'W-NORD'), ('00000000-0000-0000-0000-000000000002', 'W-NORD'),
        ('00000000-0000-0000-0000-000000000003', 'W-NORD'), ('00000000-0000-0000-0000-000000000004', 'W-SÜD'),
        ('00000000-0000-0000-0000-000000000005', NULL);
    INSERT INTO recording VALUES (50001, '00000000-0000-0000-0000-000000000001', NULL);
    INSERT INTO channel VALUES (50001, 'C3', NULL);
    INSERT INTO event VALUES (1, 50001, 'C3', 'apnoea'), (2, 50001, NULL, 'arousal');
";

const DRAFT: &str = r#"# 6 tables, 7 foreign keys, 1 of several columns. Links are drawn by you: for each foreign key both ways are offered;
# take away the `#` from those that a row shall bring along.

design "TITLE"
source PLACE

table channel "channel {label} {recording_id}"
    label_recording_id key (label, recording_id)
    recording_id       integer
    show               gain

table event "event {id}"
    id                         key bigint
    recording_id               integer
    channel_label_recording_id (channel_label, recording_id)
    show                       kind

table recording "recording {id}"
    id         key integer
    subject_id uuid
    show       started_at

table staff "staff {id}"
    id            key uuid
    supervisor_id uuid
    show          name, role

table subject "subject {id}"
    id           key uuid
    hospital_no  unique text
    insurance_no text
    ward_code    text
    physician_id uuid
    show         name, born, consent, weight, note, deleted

table ward "ward {code}"
    code key text
    show name

# ---- Links: what a row brings along. The words are read to physicians: better them.

# link channel.recording_id -> recording.id "is the recording of"                          # channel brings its recording: 1 -> 1 rows
# link recording.id -> channel.recording_id "belongs to"                                   # recording brings every channel of it: about 1 each
# link event.recording_id -> recording.id "is the recording of"                            # event brings its recording: 2 -> 1 rows
# link recording.id -> event.recording_id "belongs to"                                     # recording brings every event of it: about 2 each
# link event.channel_label_recording_id -> channel.label_recording_id "is the channel of"  # event brings its channel: 2 -> 1 rows
# link channel.label_recording_id -> event.channel_label_recording_id "belongs to"         # channel brings every event of it: about 2 each
# link recording.subject_id -> subject.id "is the subject of"                              # recording brings its subject: 1 -> 5 rows
# link subject.id -> recording.subject_id "belongs to"                                     # subject brings every recording of it: less than one each
# link staff.supervisor_id -> staff.id "is the supervisor of"                              # staff brings its supervisor: 0 -> 0 rows
# link staff.id -> staff.supervisor_id "has as its supervisor"                             # staff brings every staff of it
# link subject.ward_code -> ward.code "is the ward of"                                     # subject brings its ward: 5 -> 2 rows
# link ward.code -> subject.ward_code "belongs to"                                         # ward brings every subject of it: about 3 each
# link subject.physician_id -> staff.id "is the physician of"                              # subject brings its physician: 5 -> 0 rows
# link staff.id -> subject.physician_id "has as its physician"                             # staff brings every subject of it

# ---- Loads: what somebody at the desk can ask for by name; here by each table's key.

load channel by channel.label_recording_id
load event by event.id
load recording by recording.id
load staff by staff.id
load subject by subject.id
load ward by ward.code

# note: log has no key: left out
# note: 1 view is left out; a view can be a table of a design too, with a key that you name
# note: subject.insurance_no is unique by an index that has a condition (WHERE CONDITION): left as not unique
# note: subject has 11 columns; 6 that no key, foreign key or unique index uses are shown and need no place
"#;

fn draft(lab: &Lab) -> String {
    source::draft(&lab.source()).unwrap_or_else(|failure| panic!("{}: {failure}", lab.name()))
}

/// A draft is without mistakes and fits its database; so is it with the links that there is room for, in every stretch of them.
fn assert_fits(lab: &Lab, draft: &str) {
    opened(lab, draft);
    let offered = draft
        .lines()
        .filter(|line| line.starts_with("# link "))
        .count();
    for first in (0..offered).step_by(MOST_LINKS / 2) {
        let mut seen = 0;
        let lines = draft.lines().map(|line| {
            let chosen = line.starts_with("# link ") && {
                seen += 1;
                (first + 1..=first + MOST_LINKS).contains(&seen)
            };
            match chosen {
                true => format!("{}\n", &line[2..]),
                false => format!("{line}\n"),
            }
        });
        let text: String = lines.collect();
        let reading = design::read(&text);
        let design = reading
            .design
            .unwrap_or_else(|| panic!("{text}\n{:?}", reading.problems));
        assert_eq!(design.links.len(), (offered - first).min(MOST_LINKS));
        let errors = reading
            .problems
            .iter()
            .filter(|problem| problem.code.severity() == Severity::Error);
        assert_eq!(errors.count(), 0, "{text}");
        opened(lab, &text);
    }
}

#[test]
fn a_laboratory_is_drafted() {
    for lab in Lab::both(LAB) {
        let text = draft(&lab);
        let place = lab.source();
        let (title, condition) = match &lab {
            Lab::Sqlite(_) => ("lab".to_string(), "deleted IS NULL"),
            Lab::Postgres(name) => (name.clone(), "(deleted IS NULL)"),
        };
        let expected = DRAFT
            .replace("TITLE", &title)
            .replace(
                "PLACE",
                &format!("{} \"{}\"", place.kind.name(), place.place),
            )
            .replace("CONDITION", condition);
        assert_eq!(text, expected, "{}", lab.name());
        assert_fits(&lab, &text);
    }
}

/// Eight tables have room; the others, with the fewest foreign keys, stand as comments, and links to them aren't offered.
#[test]
fn more_tables_than_there_is_room_for() {
    let tables: String = (0..9)
        .map(|number| format!("CREATE TABLE t{number} (id integer PRIMARY KEY NOT NULL, hub integer REFERENCES hub);"))
        .collect();
    let statements = format!(
        "CREATE TABLE hub (id integer PRIMARY KEY NOT NULL); {tables} CREATE TABLE last (id integer PRIMARY KEY NOT NULL, a integer REFERENCES t7, b integer REFERENCES t8)"
    );
    for lab in Lab::both(&statements) {
        let text = draft(&lab);
        let design = design::read(&text).design.expect("a design");
        let names: Vec<&str> = design
            .tables
            .iter()
            .map(|table| table.name.as_str())
            .collect();
        assert_eq!(names, ["hub", "last", "t0", "t1", "t2", "t3", "t7", "t8"]);
        assert!(
            text.contains("\n# table t4 \"t4 {id}\"\n#     id  key integer\n"),
            "{text}"
        );
        assert!(text.contains("at most 8 tables: those with the fewest foreign keys stand as comments: t4, t5, t6\n"), "{text}");
        assert!(!text.contains("link t4"), "{text}");
        assert_fits(&lab, &text);
    }
}

#[test]
fn names_that_need_quotes_and_names_that_nothing_can_write() {
    for lab in Lab::both(
        "CREATE TABLE \"the ward\" (\"show\" text PRIMARY KEY NOT NULL, \"a{b}\" text, \"c`d\" text);
         CREATE TABLE \"b`ad\" (id integer PRIMARY KEY NOT NULL);
         CREATE TABLE subject (\"key\" integer PRIMARY KEY NOT NULL, \"my ward\" text REFERENCES \"the ward\");",
    ) {
        let text = draft(&lab);
        assert!(text.contains("table `the ward` \"the ward {show}\"\n    `show` key text\n    show   `a{b}`\n"), "{text}");
        assert!(text.contains("# link subject.`my ward` -> `the ward`.show"), "{text}");
        assert!(text.contains("has a name that no design can write: left out\n"), "{text}");
        assert_fits(&lab, &text);
    }
}

#[test]
fn what_does_not_fit_is_noted() {
    let lab = Lab::sqlite(
        "CREATE TABLE ward (code text COLLATE NOCASE PRIMARY KEY NOT NULL);
         CREATE TABLE subject (id integer PRIMARY KEY, ward_code text REFERENCES ward, tag string UNIQUE, doctor text REFERENCES staff (id));
         CREATE TABLE staff (id integer PRIMARY KEY, low bigint);
         CREATE TABLE recording (id integer PRIMARY KEY, gone integer REFERENCES nowhere);
         INSERT INTO staff VALUES (0, 1);
         CREATE TABLE gone (id integer); CREATE VIEW broken AS SELECT id FROM gone; DROP TABLE gone",
    );
    let text = draft(&lab);
    for note in [
        "# note: ward has the key code, which is compared by the collation NOCASE, which calls different texts equal",
        "# note: broken is left out, since it can't be read: ",
        "# note: subject's foreign key to ward is left out, since that isn't here\n",
        "# note: recording's foreign key to nowhere is left out, since that isn't here\n",
        "# note: subject.tag has the type string, which no column of a design has: only shown\n",
        "# note: subject refers to staff by doctor: no link is offered, since the columns aren't of one type of a design\n",
    ] {
        assert!(text.contains(note), "{note}\n{text}");
    }
    assert_fits(&lab, &text);
    let lab = Lab::postgres(
        "CREATE TABLE a (id numeric PRIMARY KEY, name text);
         CREATE TABLE b (id integer UNIQUE NOT NULL, c character(3) PRIMARY KEY, t timestamptz UNIQUE, d integer UNIQUE DEFERRABLE);
         CREATE TABLE c (id integer PRIMARY KEY, at timestamp REFERENCES b (t));
         CREATE MATERIALIZED VIEW m AS SELECT 1 AS id;
         INSERT INTO b VALUES (0, 'x', NULL, 1)",
    );
    let text = draft(&lab);
    for note in [
        "# note: a has the key id, which has the type numeric, which no column of a design has: left out\n",
        "# note: m reads the materialized view `m`, whose rows may change within a snapshot: left out\n",
        "# note: b.d is unique by an index that is deferrable: left as not unique\n",
        "# note: c refers to b by at: no link is offered, since the columns aren't of one type of a design\n",
        "# note: b.c has the type character(3) in the database, which pads with blanks",
        "    id key bigint\n    t  unique timestamp\n    d  bigint\n",
    ] {
        assert!(text.contains(note), "{note}\n{text}");
    }
    assert_fits(&lab, &text);
}

/// Tuples of parts without a type aren't drafted, and two tuples never have one name.
#[test]
fn tuples_that_are_hard_to_name() {
    for lab in Lab::both(
        "CREATE TABLE a (x integer NOT NULL, y real NOT NULL, z text NOT NULL, PRIMARY KEY (x, z), UNIQUE (x, y));
         CREATE TABLE b (
            id integer PRIMARY KEY NOT NULL, p integer, q_r text, p_q integer, r text, f real, p_q_r_2 integer,
            FOREIGN KEY (p, q_r) REFERENCES a (x, z), FOREIGN KEY (p_q, r) REFERENCES a (x, z), FOREIGN KEY (p, f) REFERENCES a (x, y)
         )",
    ) {
        let text = draft(&lab);
        assert!(text.contains("    p_q_r   (p, q_r)\n    p_q_r_3 (p_q, r)\n"), "{text}");
        assert!(text.contains("# note: b refers to a by p, f: no link is offered"), "{text}");
        assert_eq!(text.matches("# link ").count(), 4, "{text}");
        assert_fits(&lab, &text);
    }
}

#[test]
fn schemas_and_passwords() {
    let lab = Lab::postgres("CREATE SCHEMA lab; CREATE TABLE lab.ward (code text PRIMARY KEY); CREATE TABLE ward (code text PRIMARY KEY)");
    let text = draft(&lab);
    assert!(text.contains("\ntable ward \"ward {code}\"\n"), "{text}");
    assert!(
        text.contains("\ntable lab_ward from lab.ward \"lab_ward {code}\"\n"),
        "{text}"
    );
    assert_fits(&lab, &text);
    let mut place = lab.source();
    place.place += " password=secret";
    let text = source::draft(&place).expect("a draft");
    assert!(!text.contains("secret"), "{text}");
    assert!(
        text.contains("# note: the source is left out, since it has a password"),
        "{text}"
    );
    assert!(open(&lab, &text).is_ok());
}

#[test]
fn an_empty_database_is_a_design_without_tables() {
    for lab in Lab::both("") {
        let text = draft(&lab);
        assert!(text.starts_with("# 0 tables, 0 foreign keys. "), "{text}");
        opened(&lab, &text);
    }
}
