//! Values are the same exactly if the database says that they are equal: every pair of columns of two tables, of whatever types, that a design can link, held to
//! the database's own join. Where a design or a value is refused, nothing is said.

mod common;

use std::collections::BTreeMap;

use common::{at, open};
use source::{Condition, Failure, NotOpened, Value};
use testing::Lab;

/// The types, and a tuple whose parts have those of the database.
const COLUMNS: [&str; 8] = [
    "c integer",
    "c bigint",
    "c text",
    "c uuid",
    "c date",
    "c timestamp",
    "c boolean",
    "p (k, c)",
];

/// What was seen of a pair.
#[derive(Default)]
struct Tally {
    refused: usize,
    unfit: usize,
    none: usize,
    some: usize,
}

/// A database of tables `t0`, `t1`, .. with a key, a column `c` and a column `k` that is 1 everywhere, and of views `v0`, .. over them.
struct Columns {
    lab: Lab,
    names: Vec<String>,
}

impl Columns {
    /// For each pair of rows that the database calls equal, the key at the other end, by that at the one.
    fn joined(&self, left: &str, right: &str) -> BTreeMap<String, Vec<String>> {
        let query = format!(
            "SELECT l.id, r.id FROM {left} AS l JOIN {right} AS r ON l.c = r.c ORDER BY 1, 2"
        );
        let mut joined: BTreeMap<String, Vec<String>> = BTreeMap::new();
        for row in self.lab.rows(&query) {
            if let [Some(left), Some(right)] = &row[..] {
                joined.entry(left.clone()).or_default().push(right.clone());
            }
        }
        joined
    }

    fn compare(&self, left: &str, right: &str, kind: &str, tally: &mut Tally) {
        let name = &kind[..1];
        let text = format!(
            "design \"Pair\"\ntable l from {left}\n    id key integer\n    {kind}\ntable r from {right}\n    id key integer\n    {kind}\nlink l.{name} -> r.{name}\nload l by l.id\n"
        );
        let mut source = match open(&self.lab, &text) {
            Ok(opened) => opened.source,
            Err(NotOpened::Problems(_)) => {
                tally.refused += 1;
                return;
            }
            Err(NotOpened::Unreadable(why)) => panic!("{left} {right} {kind}: {why}"),
        };
        let joined = self.joined(left, right);
        for (key, _) in source.values(at(0, 0), 1000).expect("keys") {
            let row = match source.with_key(0, &key) {
                Ok(row) => row.expect("a row"),
                Err(Failure::Unfit(_)) => {
                    tally.unfit += 1;
                    continue;
                }
                Err(failure) => panic!("{failure}"),
            };
            let expected = joined.get(&key.to_string()).cloned().unwrap_or_default();
            let Some(value) = row.values[1].clone() else {
                assert_eq!(expected, [""; 0], "{left} {right} {kind}: NULL");
                continue;
            };
            let condition = Condition::Value {
                column: at(1, 1),
                value: value.clone(),
                issue: 0,
            };
            let rows = match source.fetch(&condition) {
                Ok(rows) => rows,
                Err(Failure::Unfit(_)) => {
                    tally.unfit += 1;
                    continue;
                }
                Err(failure) => panic!("{failure}"),
            };
            let mut found: Vec<String> = rows
                .iter()
                .filter_map(|row| row.values[0].as_ref().map(Value::to_string))
                .collect();
            found.sort();
            let mut expected = expected;
            expected.sort();
            assert_eq!(found, expected, "{left} {right} {kind}: {value:?}");
            assert!(rows
                .iter()
                .all(|row| row.values[1].as_ref() == Some(&value)));
            match found.is_empty() {
                true => tally.none += 1,
                false => tally.some += 1,
            }
        }
    }

    /// Whether a column serves as one of a type; otherwise no pair with it does.
    fn fits(&self, name: &str, kind: &str) -> bool {
        let text = format!(
            "design \"One\"\ntable l from {name}\n    id key integer\n    {kind}\nload l by l.id\n"
        );
        open(&self.lab, &text).is_ok()
    }

    /// Compares all pairs of columns, each pair in both orders or in one.
    fn compare_all(&self, both_ways: bool) -> Tally {
        let mut tally = Tally::default();
        for kind in COLUMNS {
            let fits = |name: &&String| self.fits(name, kind);
            let fitting: Vec<&String> = self.names.iter().filter(fits).collect();
            tally.refused += self.names.len() - fitting.len();
            for (number, left) in fitting.iter().enumerate() {
                let from = if both_ways { 0 } else { number };
                for right in &fitting[from..] {
                    self.compare(left, right, kind, &mut tally);
                }
            }
        }
        tally
    }
}

/// Each kind of outcome was reached, so that the comparison says something.
fn assert_reached(tally: &Tally) {
    let Tally {
        refused,
        unfit,
        none,
        some,
    } = tally;
    println!("refused {refused}, unfit {unfit}, no rows {none}, rows {some}");
    assert!(*refused > 0 && *none > 0 && *some > 0);
}

#[test]
fn sqlite() {
    let types = [
        "integer",
        "bigint",
        "text",
        "varchar(9)",
        "uuid",
        "datetime",
        "boolean",
        "string",
        "real",
        "blob",
        "",
        "text COLLATE NOCASE",
        "text COLLATE RTRIM",
    ];
    let values = [
        "NULL",
        "0",
        "1",
        "'1'",
        "1.0",
        "'1.0'",
        "x'31'",
        "7",
        "'7'",
        "'007'",
        "' 7'",
        "1000",
        "'1e3'",
        "3.5",
        "'3.5'",
        "4294967295",
        "9007199254740993",
        "9007199254740992.0",
        "'9007199254740993'",
        "9223372036854775807",
        "9223372036854775808",
        "'a'",
        "'A'",
        "'a '",
        "''",
        "char(97, 0, 98)",
        "'5d0c1f7a-0000-4000-8000-00000000abcd'",
        "'5D0C1F7A-0000-4000-8000-00000000ABCD'",
        "'2025-03-08'",
        "'2025-03-08 22:00'",
        "'2025-03-08 22:00:00'",
    ];
    let mut statements = String::new();
    let mut names = Vec::new();
    for (number, kind) in types.iter().enumerate() {
        let rows: Vec<String> = (1..)
            .zip(values)
            .map(|(id, value)| format!("({id}, {value})"))
            .collect();
        statements += &format!(
            "CREATE TABLE t{number} (id integer PRIMARY KEY NOT NULL, c {kind}, k integer DEFAULT 1); INSERT INTO t{number} (id, c) VALUES {};",
            rows.join(", ")
        );
        names.push(format!("t{number}"));
    }
    // of whole columns, of one storage class, and by expressions without a type
    for (number, view) in [
        "SELECT id, k, c FROM t2",
        "SELECT id, k, c || '' AS c FROM t2",
        "SELECT id, k, CAST(c AS TEXT) AS c FROM t10 WHERE typeof(c) <> 'blob'",
        "SELECT id, k, CAST(c AS INTEGER) AS c FROM t10 WHERE typeof(c) <> 'blob'",
        "SELECT id, k, coalesce(c, NULL) AS c FROM t10 WHERE typeof(c) = 'text'",
        "SELECT id, k, coalesce(c, NULL) AS c FROM t10 WHERE typeof(c) = 'integer'",
        "SELECT id, k, coalesce(c, NULL) AS c FROM t10 WHERE typeof(c) = 'blob'",
        "SELECT id, k, lower(c) AS c FROM t11",
    ]
    .into_iter()
    .enumerate()
    {
        statements += &format!("CREATE VIEW v{number} AS {view};");
        names.push(format!("v{number}"));
    }
    let lab = Lab::sqlite(&statements);
    let tally = Columns { lab, names }.compare_all(true);
    assert_reached(&tally);
    assert!(tally.unfit > 0);
}

#[test]
fn postgresql() {
    let whole = "(1, NULL), (2, 0), (3, 1), (4, 7), (5, 32767)";
    let texts =
        "(1, NULL), (2, ''), (3, 'a'), (4, 'A'), (5, 'a '), (6, 'ä'), (7, U&'a\\0308'), (8, '7')";
    let times = "(1, NULL), (2, '2025-03-08 22:00:00'), (3, '2025-03-08 22:00:00.5'), (4, 'infinity'), (5, '0044-03-15 12:00:00 BC')";
    let tables = [
        ("smallint", whole),
        ("integer", whole),
        ("bigint", "(1, 1), (2, 4294967295), (3, -9223372036854775808), (4, 9223372036854775807)"),
        ("numeric", whole),
        ("text", texts),
        ("varchar(9)", texts),
        ("character(9)", texts),
        ("citext", texts),
        ("text COLLATE folded", texts),
        ("text COLLATE \"de-x-icu\"", texts),
        ("code", texts),
        (
            "uuid",
            "(1, NULL), (2, '5d0c1f7a-0000-4000-8000-00000000abcd'), (3, '{5D0C1F7A-0000-4000-8000-00000000ABCD}')",
        ),
        ("date", "(1, NULL), (2, '2025-03-08'), (3, 'infinity'), (4, '0044-03-15 BC'), (5, '12025-01-01')"),
        ("timestamp", times),
        ("timestamptz", times),
        ("timestamptz", "(1, '2025-03-08 23:00:00+01'), (2, '2025-03-08 22:00:00+00')"),
        ("boolean", "(1, NULL), (2, true), (3, false)"),
    ];
    let mut statements = "CREATE EXTENSION citext; CREATE DOMAIN code AS text;
        CREATE COLLATION folded (provider = icu, locale = 'und-u-ks-level2', deterministic = false);"
        .to_string();
    let mut names = Vec::new();
    for (number, (kind, rows)) in tables.iter().enumerate() {
        statements += &format!(
            "CREATE TABLE t{number} (id integer PRIMARY KEY, c {kind}, k integer DEFAULT 1); INSERT INTO t{number} VALUES {rows};"
        );
        names.push(format!("t{number}"));
    }
    let lab = Lab::postgres(&statements);
    // its types decide alone, whichever column is asked first
    let tally = Columns { lab, names }.compare_all(false);
    assert_reached(&tally);
}
