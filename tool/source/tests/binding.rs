//! What a design says of a database that the database isn't: each told by code, place and words.

mod common;

use common::{at, fetched, has, open, opened, problem, problems, texts, told, unfit};
use source::NotOpened;
use testing::Lab;

/// A design of one table `t` with the columns that are given, its second line `table t`.
fn design(columns: &str) -> String {
    format!("design \"One\"\ntable t\n{columns}\nload all by t.id\n")
}

/// A database with one table `t` of a key `id` and another column `c`, in both kinds.
fn labs(kind: &str) -> [Lab; 2] {
    Lab::both(&table(kind))
}

fn table(kind: &str) -> String {
    format!("CREATE TABLE t (id integer PRIMARY KEY NOT NULL, c {kind})")
}

/// What is told of `c` as of a type.
fn as_type(lab: &Lab, kind: &str) -> String {
    problem(lab, &design(&format!("    id key integer\n    c {kind}")))
}

#[test]
fn names_that_are_not_there() {
    for lab in
        Lab::both("CREATE TABLE recording (id integer PRIMARY KEY NOT NULL, subject_id integer)")
    {
        let text = "design \"Names\"
table recordings
    id key integer
table night from recording
    id    key integer
    subj  (subject_id, subjct_id)
    other integer issue issue_no
    show  subjectid, xyz
table far from nowhere.recording
    id key integer
table further from a.b.c
    id key integer
load night by night.id
";
        let problems = problems(&lab, text);
        let told: Vec<String> = problems.iter().map(|problem| told(problem, text)).collect();
        assert_eq!(
            told,
            [
                "E070 at 2:7: the database has no table or view `recordings`",
                "E071 at 6:24: `night` has no column `subjct_id` in the database",
                "E071 at 7:5: `night` has no column `other` in the database",
                "E071 at 7:5: `night` has no column `issue_no` in the database",
                "E071 at 8:11: `night` has no column `subjectid` in the database",
                "E071 at 8:22: `night` has no column `xyz` in the database",
                "E070 at 9:7: the database has no table or view `nowhere.recording`",
                "E070 at 11:7: `a.b.c` names no table",
            ],
            "{}",
            lab.name()
        );
        let labels: Vec<&str> = problems
            .iter()
            .map(|problem| problem.at.text.as_str())
            .collect();
        assert_eq!(
            labels[0],
            "did you mean `recording`? write `from recording`"
        );
        assert_eq!(labels[1], "did you mean `subject_id`?");
        assert_eq!(labels[4], "did you mean `subject_id`?");
        assert_eq!(
            problems[5].notes,
            ["help: its columns are `id`, `subject_id`"]
        );
    }
}

#[test]
fn capitals_are_the_databases_matter() {
    let statements =
        "CREATE TABLE Ward (Code text PRIMARY KEY NOT NULL); INSERT INTO ward VALUES ('W')";
    let text = "design \"Capitals\"\ntable WARD\n    CODE key text\nload ward by WARD.CODE\n";
    let lab = Lab::sqlite(statements);
    let rows = fetched(&mut *opened(&lab, text), &has(at(0, 0), "W"));
    assert_eq!(texts(&rows, 0), ["W"]);
    let told = problem(&Lab::postgres(statements), text);
    assert_eq!(
        told,
        "E070 at 2:7: the database has no table or view `WARD`"
    );
}

#[test]
fn names_of_any_characters() {
    for lab in Lab::both(
        "CREATE TABLE \"the \"\"ward\" (\"a.b\" text PRIMARY KEY NOT NULL, \"select\" text); INSERT INTO \"the \"\"ward\" VALUES ('W', 's')",
    ) {
        let text = "design \"Names\"\ntable ward from `the \"ward`\n    `a.b` key text\n    show select\nload ward by ward.`a.b`\n";
        let rows = fetched(&mut *opened(&lab, text), &has(at(0, 0), "W"));
        assert_eq!(rows[0].shown, [Some("s".into())], "{}", lab.name());
    }
}

#[test]
fn a_schema_is_named_before_the_table() {
    let lab = Lab::postgres(
        "CREATE SCHEMA lab; CREATE TABLE lab.ward (code text PRIMARY KEY); CREATE TABLE ward (code integer PRIMARY KEY); INSERT INTO lab.ward VALUES ('W')",
    );
    let text =
        "design \"Schemas\"\ntable ward from lab.ward\n    code key text\nload ward by ward.code\n";
    let rows = fetched(&mut *opened(&lab, text), &has(at(0, 0), "W"));
    assert_eq!(rows.len(), 1);
    let lab = Lab::sqlite("CREATE TABLE ward (code text PRIMARY KEY NOT NULL)");
    opened(&lab, &text.replace("lab.ward", "main.ward"));
}

#[test]
fn types_that_fit() {
    for (database, kinds) in [
        (
            "smallint",
            &["integer", "bigint", "measure integer"] as &[&str],
        ),
        ("bigint", &["integer", "bigint", "measure integer"]),
        ("text", &["text"]),
        ("varchar(20)", &["text"]),
        ("uuid", &["uuid"]),
        ("date", &["date"]),
        ("timestamp", &["timestamp"]),
        ("boolean", &["boolean"]),
    ] {
        for lab in labs(database) {
            for kind in kinds {
                opened(&lab, &design(&format!("    id key integer\n    c {kind}")));
            }
        }
    }
}

#[test]
fn types_that_do_not_fit() {
    for (database, kind) in [
        ("text", "integer"),
        ("text", "boolean"),
        ("integer", "text"),
        ("integer", "date"),
        ("real", "integer"),
        ("double precision", "measure integer"),
    ] {
        for lab in labs(database) {
            let told = as_type(&lab, kind);
            assert!(
                told.starts_with("E072 at 4:5: t.c has the type "),
                "{}: {told}",
                lab.name()
            );
        }
    }
    for (database, kind) in [
        ("numeric(10, 0)", "bigint"),
        ("uuid", "text"),
        ("text", "uuid"),
        ("date", "timestamp"),
        ("timestamp", "date"),
        ("boolean", "integer"),
        ("bytea", "text"),
        ("name", "text"),
        ("text[]", "text"),
    ] {
        let told = as_type(&Lab::postgres(&table(database)), kind);
        assert!(told.starts_with("E072 at 4:5: t.c has the type "), "{told}");
    }
    let lab = Lab::postgres(
        "CREATE TYPE stage AS ENUM ('N1', 'N2'); CREATE TABLE t (id integer PRIMARY KEY, c stage)",
    );
    assert_eq!(
        as_type(&lab, "text"),
        "E072 at 4:5: t.c has the type stage in the database: its values are no text"
    );
}

#[test]
fn a_domain_has_the_type_behind_it() {
    let lab = Lab::postgres(
        "CREATE DOMAIN code AS text CHECK (value <> ''); CREATE DOMAIN ward_code AS code; CREATE DOMAIN padded AS character(3);
         CREATE TABLE t (id integer PRIMARY KEY, c ward_code, p padded)",
    );
    opened(&lab, &design("    id key integer\n    c text"));
    let told = problem(&lab, &design("    id key integer\n    p text"));
    assert!(
        told.starts_with("E074 at 4:5: t.p has the type padded"),
        "{told}"
    );
}

#[test]
fn padded_types() {
    for kind in ["character(5)", "char"] {
        let told = as_type(&Lab::postgres(&table(kind)), "text");
        assert!(
            told.starts_with("E074 at 4:5: t.c has the type character("),
            "{told}"
        );
    }
    // SQLite pads nothing, whatever the type is called
    opened(
        &Lab::sqlite(&table("character(5)")),
        &design("    id key integer\n    c text"),
    );
}

#[test]
fn collations_of_sqlite() {
    for (collation, views) in [("NOCASE", true), ("RTRIM", true), ("BINARY", false)] {
        let lab = Lab::sqlite(&format!(
            "{};
             CREATE VIEW same AS SELECT id, c FROM t;
             CREATE VIEW cast_view AS SELECT id, CAST(c AS TEXT) AS c FROM t;
             CREATE VIEW given AS SELECT id, id || '' COLLATE {collation} AS c FROM t;
             CREATE VIEW united AS SELECT id, c FROM t UNION ALL SELECT id, '' FROM t;
             CREATE VIEW plain AS SELECT id, lower(c) AS c FROM t",
            table(&format!("text COLLATE {collation}"))
        ));
        for name in ["t", "same", "cast_view", "given", "united"] {
            let text = design("    id bigint\n    c key text")
                .replace("table t\n", &format!("table t from {name}\n"));
            let found = open(&lab, &text);
            let Err(NotOpened::Problems(problems)) = found else {
                assert!(!views && found.is_ok(), "{name} {collation}");
                continue;
            };
            let words = format!(
                "t.c is compared by the collation {collation}, which calls different texts equal"
            );
            let told: Vec<String> = problems
                .iter()
                .map(|problem| problem.message.clone())
                .collect();
            assert!(told.contains(&words), "{name}: {told:?}");
        }
        let text =
            design("    id key bigint\n    c text").replace("table t\n", "table t from plain\n");
        assert!(open(&lab, &text).is_ok(), "{collation}");
        // of a number no collation is asked
        let lab = Lab::sqlite(&table(&format!("integer COLLATE {collation}")));
        opened(&lab, &design("    id key integer\n    c integer"));
    }
}

/// A collation that another program has brought along can't be tried here.
#[test]
fn a_collation_that_is_not_known() {
    let lab = Lab::sqlite(&format!(
        "{}; PRAGMA writable_schema = ON; UPDATE sqlite_master SET sql = replace(sql, 'NOCASE', 'german')",
        table("text COLLATE NOCASE")
    ));
    assert_eq!(
        as_type(&lab, "text"),
        "E073 at 4:5: t.c is compared by the collation german, which calls different texts equal"
    );
}

#[test]
fn collations_of_postgresql() {
    let lab = Lab::postgres(
        "CREATE COLLATION folded (provider = icu, locale = 'und-u-ks-level2', deterministic = false);
         CREATE EXTENSION citext;
         CREATE TABLE t (id integer PRIMARY KEY, c text COLLATE folded, i citext, german text COLLATE \"de-x-icu\", plain text COLLATE \"C\");
         CREATE VIEW v AS SELECT id, plain COLLATE folded AS c FROM t;",
    );
    let told = as_type(&lab, "text");
    assert_eq!(
        told,
        "E073 at 4:5: t.c is compared by the collation folded, which calls different texts equal"
    );
    let told = problem(&lab, &design("    id key integer\n    i text"));
    assert!(
        told.starts_with("E073 at 4:5: t.i has the type citext"),
        "{told}"
    );
    opened(
        &lab,
        &design("    id key integer\n    german text\n    plain text"),
    );
    let view = design("    id key integer\n    c text").replace("table t\n", "table t from v\n");
    let problems = problems(&lab, &view);
    assert!(problems.iter().any(|problem| problem.code.name() == "E073"));
}

#[test]
fn affinities_that_do_not_suit() {
    for kind in ["string", "decimal(5)", "uuid", "", "blob", "any"] {
        let told = as_type(&Lab::sqlite(&table(kind)), "text");
        assert!(told.starts_with("E075 at 4:5: t.c has "), "{kind}: {told}");
    }
    for kind in ["", "blob", "any"] {
        let told = as_type(&Lab::sqlite(&table(kind)), "bigint");
        assert!(told.starts_with("E075 at 4:5: t.c has "), "{kind}: {told}");
    }
    let lab = Lab::sqlite("CREATE TABLE t (id integer PRIMARY KEY, c ANY) STRICT");
    assert!(as_type(&lab, "bigint").starts_with("E075"));
}

/// A view's expression has no type of its own: its values are looked through.
#[test]
fn values_of_a_views_expressions() {
    let lab = Lab::sqlite(
        "CREATE TABLE raw (id integer PRIMARY KEY NOT NULL, c); INSERT INTO raw VALUES (1, 'a'), (2, NULL);
         CREATE VIEW t AS SELECT id, coalesce(c, NULL) AS c FROM raw",
    );
    let text = design("    id key integer\n    c text");
    assert!(open(&lab, &text).is_ok());
    let number = design("    id key integer\n    c bigint");
    assert_eq!(
        problem(&lab, &number),
        "E031 at 4:5: t.c has the value \"a\", and that is no whole number"
    );
    lab.run("INSERT INTO raw VALUES (3, 7)");
    assert_eq!(
        problem(&lab, &text),
        "E031 at 4:5: t.c has the value 7, and that is no text"
    );
}

#[test]
fn parts_of_tuples_have_the_databases_types() {
    for lab in Lab::both(
        "CREATE TABLE t (id integer NOT NULL, c text NOT NULL, r real, PRIMARY KEY (id, c));
         CREATE TABLE u (a text NOT NULL, b integer NOT NULL, id integer PRIMARY KEY NOT NULL)",
    ) {
        let text = "design \"Tuples\"
table t
    name key (id, c)
table u
    id   key integer
    name (a, b)
    turned (b, a)
link t.name -> u.turned
load all by u.id
";
        opened(&lab, text);
        let told = problem(&lab, &text.replace("u.turned\n", "u.name\n"));
        assert!(
            told.starts_with("E076 at 8:6: t.name is "),
            "{}: {told}",
            lab.name()
        );
        let told = problem(
            &lab,
            &text.replace("key (id, c)", "key (id, c)\n    odd (id, r)"),
        );
        assert!(
            told.starts_with("E072 at 4:14: t.r has the type "),
            "{}: {told}",
            lab.name()
        );
    }
}

/// In SQLite 1 is a number and a yes: a tuple's parts that the design doesn't declare are what their types say.
#[test]
fn a_yes_is_no_number_in_a_tuple() {
    let lab = Lab::sqlite(
        "CREATE TABLE t (id integer PRIMARY KEY, a integer, b boolean); CREATE TABLE u (id integer PRIMARY KEY, a integer, b integer)",
    );
    let text = "design \"Yes\"
table t
    id   key integer
    pair (a, b)
table u
    id   key integer
    pair (a, b)
link t.pair -> u.pair
load all by t.id
";
    assert!(problem(&lab, text).starts_with("E076 at 8:6: t.pair is "));
    opened(&lab, &text.replace("table t\n", "table t from u\n"));
}

/// A value of one form is asked for wherever the database may have it, whatever form is expected there.
#[test]
fn a_part_of_another_form_is_not_passed_over() {
    let lab = Lab::sqlite(
        "CREATE TABLE t (id integer PRIMARY KEY, a integer, b text); CREATE TABLE u (id integer PRIMARY KEY, a integer, b uuid);
         INSERT INTO t VALUES (1, 1, 'none'); INSERT INTO u VALUES (7, 1, 'none')",
    );
    let text = "design \"Forms\"
table t
    id   key integer
    pair (a, b)
table u
    id   key integer
    pair (a, b)
link t.pair -> u.pair
load all by t.id
";
    let mut source = opened(&lab, text);
    let words = unfit(source.fetch(&has(at(1, 1), (1, "none"))));
    assert_eq!(words, "u 7: u.pair is \"none\", and that is no UUID (E031)");
}

#[test]
fn tables_outside_the_snapshot() {
    let lab = Lab::postgres(
        "CREATE TABLE raw (id integer PRIMARY KEY);
         CREATE MATERIALIZED VIEW m AS SELECT id FROM raw;
         CREATE VIEW v AS SELECT id FROM m;
         CREATE VIEW w AS SELECT id FROM v;
         CREATE EXTENSION file_fdw;
         CREATE SERVER files FOREIGN DATA WRAPPER file_fdw;
         CREATE FOREIGN TABLE f (id integer) SERVER files OPTIONS (filename '/dev/null');
         CREATE TABLE p (id integer) PARTITION BY RANGE (id);
         CREATE FOREIGN TABLE p1 PARTITION OF p FOR VALUES FROM (0) TO (9) SERVER files OPTIONS (filename '/dev/null')",
    );
    for name in ["m", "v", "w", "f", "p"] {
        let text =
            design("    id key integer").replace("table t\n", &format!("table t from {name}\n"));
        let problems = problems(&lab, &text);
        assert_eq!(problems[0].code.name(), "E077", "{name}");
    }
}

#[test]
fn a_design_without_keys_is_not_for_a_database() {
    for lab in labs("text") {
        let told = problem(&lab, &design("    id integer"));
        assert_eq!(told, "E062 at 2:7: table `t` has no key", "{}", lab.name());
    }
}

/// Values that SQLite lets stand in columns of another type, and numbers that no cell can have, each named with its row.
#[test]
fn values_that_do_not_fit() {
    for (kind, database, value, words) in [
        ("integer", "integer", "0", "t 1: t.c is 0, and `integer` begins at 1, since 0 stands for NULL: declare it `bigint` (E031)"),
        ("integer", "integer", "-1", "t 1: t.c is -1, and `integer` is 1 to 4,294,967,295: declare it `bigint` (E031)"),
        ("integer", "integer", "4294967296", "t 1: t.c is 4294967296, and `integer` is 1 to 4,294,967,295: declare it `bigint` (E031)"),
        ("integer", "integer", "'x'", "t 1: t.c is \"x\", and that is no whole number (E031)"),
        ("bigint", "integer", "3.5", "t 1: t.c is 3.5, and that is no whole number (E031)"),
        ("bigint", "integer", "9223372036854775808", "t 1: t.c is 9.223372036854776e18, and that is no whole number (E031)"),
        ("bigint", "decimal", "x'07'", "t 1: t.c is X'07', and that is no whole number (E031)"),
        ("measure integer", "integer", "-1", "t 1: t.c is -1, and a measure is 0 to 4,294,967,295 (E031)"),
        ("measure integer", "integer", "4294967296", "t 1: t.c is 4294967296, and a measure is 0 to 4,294,967,295 (E031)"),
        ("text", "text", "x'07'", "t 1: t.c is X'07', and that is no text (E031)"),
        ("text", "text", "CAST(x'ff' AS TEXT)", "t 1: t.c is \"\u{fffd}\", and that is no text (E031)"),
        ("uuid", "uuid", "'17'", "t 1: t.c is 17, and that is no UUID (E031)"),
        ("uuid", "text", "'5d0c'", "t 1: t.c is \"5d0c\", and that is no UUID (E031)"),
        ("date", "date", "'8.3.2025'", "t 1: t.c is \"8.3.2025\", and that is no date (YYYY-MM-DD) (E031)"),
        ("timestamp", "timestamp", "'2025-03-08'", "t 1: t.c is \"2025-03-08\", and that is no timestamp (YYYY-MM-DD HH:MM:SS) (E031)"),
        ("boolean", "boolean", "2", "t 1: t.c is 2, and that is no boolean (E031)"),
        ("boolean", "boolean", "'true'", "t 1: t.c is \"true\", and that is no boolean (E031)"),
    ] {
        let lab = Lab::sqlite(&format!("{}; INSERT INTO t VALUES (1, {value})", table(database)));
        let mut source = opened(&lab, &design(&format!("    id key integer\n    c {kind}")));
        assert_eq!(unfit(source.fetch(&has(at(0, 0), 1))), words);
        // another row is read all the same
        assert_eq!(fetched(&mut *source, &has(at(0, 0), 2)), []);
    }
    for (kind, value) in [
        ("integer", "0"),
        ("integer", "4294967296"),
        ("measure integer", "-1"),
    ] {
        let lab = Lab::postgres(&format!(
            "{}; INSERT INTO t VALUES (1, {value})",
            table("bigint")
        ));
        let mut source = opened(&lab, &design(&format!("    id key integer\n    c {kind}")));
        let words = unfit(source.fetch(&has(at(0, 0), 1)));
        assert!(
            words.starts_with(&format!("t 1: t.c is {value}, and ")),
            "{words}"
        );
    }
}

#[test]
fn values_at_every_limit() {
    for (kind, low, high) in [
        ("integer", 1, i64::from(u32::MAX)),
        ("measure integer", 0, i64::from(u32::MAX)),
        ("bigint", i64::MIN, i64::MAX),
    ] {
        let statements = format!(
            "{}; INSERT INTO t VALUES (1, {low}), (2, {high})",
            table("bigint")
        );
        for lab in Lab::both(&statements) {
            let mut source = opened(&lab, &design(&format!("    id key integer\n    c {kind}")));
            for (id, value) in [(1, low), (2, high)] {
                let rows = fetched(&mut *source, &has(at(0, 0), id));
                assert_eq!(texts(&rows, 1), [value.to_string()], "{}", lab.name());
            }
        }
    }
}
