//! The laboratory of `examples`, in a file of SQLite and on a PostgreSQL server of this program's own.

use std::time::Duration;

use design::Design;
use rusqlite::types::ValueRef;
use rusqlite::Connection;
use source::Source;
use testing::{Lab, Server};

const DESIGN: &str = include_str!("../../../examples/sleep.design");
const ROWS: &str = include_str!("../../../examples/lab.sql");
const TABLES: [&str; 7] = [
    "ward",
    "staff",
    "subject",
    "recording",
    "channel",
    "event",
    "scoring",
];

/// The same rows twice.
pub struct Laboratory {
    file: Lab,
    server: String,
}

impl Laboratory {
    /// Makes both databases.
    pub fn make() -> Laboratory {
        let file = Lab::sqlite(ROWS);
        let server = Server::start().database();
        let laboratory = Laboratory { file, server };
        Server::start().run(&laboratory.server, &laboratory.statements());
        laboratory
    }

    /// The design over them.
    pub fn design(&self) -> Design {
        design::read(DESIGN)
            .design
            .expect("a design without mistakes")
    }

    /// The file, in one snapshot.
    pub fn source(&self, design: &Design) -> Box<dyn Source> {
        let spans = design::read(DESIGN).spans;
        match source::open(&self.file.source(), design, &spans) {
            Ok(opened) => opened.source,
            Err(refused) => panic!("{refused:?}"),
        }
    }

    /// The file, to be asked in SQL.
    pub fn connection(&self) -> Connection {
        Connection::open(self.file.file()).expect("a file of SQLite")
    }

    /// The statements that make the same tables on a server: without references, since a table that is referred to may come later.
    fn statements(&self) -> String {
        let tables = ROWS.split(";\n").filter(|statement| {
            let statement = statement.trim_start();
            statement.contains("CREATE TABLE") || statement.starts_with("CREATE INDEX")
        });
        let tables = tables.map(|statement| {
            let lines = statement
                .lines()
                .filter(|line| !line.starts_with("--") && !line.contains("FOREIGN KEY"));
            let lines: Vec<&str> = lines
                .map(|line| line.split(" REFERENCES").next().unwrap_or(line))
                .collect();
            separated(&lines) + ";\n"
        });
        let mut statements: String = tables.collect();
        for table in TABLES {
            statements += &self.inserts(table);
        }
        statements + "VACUUM ANALYZE;\n"
    }

    fn inserts(&self, table: &str) -> String {
        let connection = self.connection();
        let mut statement = connection
            .prepare(&format!("SELECT * FROM {table}"))
            .expect(table);
        let width = statement.column_count();
        let mut rows = statement.query([]).expect(table);
        let mut inserts = String::new();
        while let Some(row) = rows.next().expect("a row") {
            let literal = |column| match row.get_ref(column).expect("a value") {
                ValueRef::Null => "NULL".to_string(),
                ValueRef::Integer(number) => number.to_string(),
                ValueRef::Text(text) => {
                    format!("'{}'", String::from_utf8_lossy(text).replace('\'', "''"))
                }
                other => panic!("{other:?}"),
            };
            let literals: Vec<String> = (0..width).map(literal).collect();
            inserts += &format!("INSERT INTO {table} VALUES ({});\n", literals.join(", "));
        }
        inserts
    }

    /// The fastest answer of the server to a prepared statement, over its socket.
    pub fn fastest_on_the_server(&self, sql: &str, value: &str, runs: usize) -> Duration {
        let value = match value.parse::<i64>() {
            Ok(number) => number.to_string(),
            Err(_) => format!("'{value}'"),
        };
        let kind = if value.starts_with('\'') {
            "text"
        } else {
            "bigint"
        };
        let mut script = format!(
            "PREPARE question ({kind}) AS {};\n\\timing on\n",
            sql.replace("?1", "$1")
        );
        script += &format!("EXECUTE question ({value});\n").repeat(runs);
        let printed = Server::start().run(&self.server, &script);
        let times = printed
            .lines()
            .filter_map(|line| line.strip_prefix("Time: "));
        let times = times.filter_map(|line| line.split(' ').next()?.parse::<f64>().ok());
        let fastest = times.min_by(f64::total_cmp).expect("psql tells times");
        Duration::from_secs_f64(fastest / 1e3)
    }
}

/// Lines of a table's statement with commas where they were cut off.
fn separated(lines: &[&str]) -> String {
    let mut whole = String::new();
    for (number, line) in lines.iter().enumerate() {
        let line = line.trim_end_matches(',');
        let opens = line.ends_with('(') || line.is_empty();
        let last = lines
            .get(number + 1)
            .is_none_or(|next| next.trim_start().starts_with(')'));
        let comma = if opens || last { "" } else { "," };
        whole += &format!("{line}{comma}\n");
    }
    whole
}
