//! SQLite: a file, opened for reading alone, in one read transaction. A value has a type of its own, whatever its column declares: each one's storage class
//! is looked at when it is fetched, and columns are told by their affinity, which decides how they are compared.

use std::path::Path;
use std::time::Duration;

use design::{Code, Single};
use rusqlite::types::ValueRef;
use rusqlite::{Connection, ErrorCode, OpenFlags};

use crate::catalog::{quoted, Column, Misfit, Relation, TableName};
use crate::database::{Cell, Database, Fit};
use crate::kind::Kind;
use crate::{forms, sqlite_catalog, Failure, Value};

/// How long a writer is waited for.
const PATIENCE: Duration = Duration::from_secs(10);

/// How many statements are kept: more than a design of 8 tables needs.
const STATEMENTS: usize = 256;

/// A file of SQLite.
pub(crate) struct Sqlite {
    connection: Connection,
    file: String,
}

impl Sqlite {
    /// Opens a file that is there.
    pub(crate) fn open(file: &str) -> Result<Sqlite, Failure> {
        Sqlite::open_waiting(file, PATIENCE)
    }

    fn open_waiting(file: &str, patience: Duration) -> Result<Sqlite, Failure> {
        let unreadable = |why: String| Failure::Unreadable(format!("{file}: {why}"));
        let found = std::fs::metadata(file).map_err(|error| unreadable(error.to_string()))?;
        if !found.is_file() {
            return Err(unreadable("that is no file".into()));
        }
        // a name such as `:memory:` means no file to SQLite, a path never does
        let path = Path::new(".").join(file);
        let flags = OpenFlags::SQLITE_OPEN_READ_ONLY | OpenFlags::SQLITE_OPEN_NO_MUTEX;
        let connection = Connection::open_with_flags(path, flags)
            .map_err(|error| unreadable(error.to_string()))?;
        connection.set_prepared_statement_cache_capacity(STATEMENTS);
        let mut sqlite = Sqlite {
            connection,
            file: file.into(),
        };
        let settled = sqlite.connection.busy_timeout(patience);
        settled.map_err(|error| sqlite.failure(error))?;
        // in UTF-16 a text may stand that is none, and is another one when it is read as UTF-8
        if sqlite.rows("PRAGMA encoding", &[])? != [[Cell::Text("UTF-8".into())]] {
            return Err(unreadable(
                "its texts are in UTF-16: copy it into a database in UTF-8".into(),
            ));
        }
        Ok(sqlite)
    }

    /// What the file is called, without its ending.
    pub(crate) fn title(&self) -> String {
        let stem = Path::new(&self.file).file_stem().unwrap_or_default();
        stem.to_string_lossy().into_owned()
    }

    fn failure(&self, error: rusqlite::Error) -> Failure {
        let file = &self.file;
        Failure::Unreadable(match error.sqlite_error_code() {
            Some(ErrorCode::DatabaseBusy) => {
                let seconds = PATIENCE.as_secs();
                format!("{file}: it is locked; a writer was waited for, for {seconds} seconds")
            }
            Some(ErrorCode::NotADatabase) => format!("{file}: that is no database of SQLite"),
            _ => format!("{file}: {error}"),
        })
    }

    fn execute(&self, sql: &str) -> Result<(), Failure> {
        let done = self.connection.execute_batch(sql);
        done.map_err(|error| self.failure(error))
    }
}

fn query(
    connection: &Connection,
    sql: &str,
    parameters: &[&Value],
) -> rusqlite::Result<Vec<Vec<Cell>>> {
    let mut statement = connection.prepare_cached(sql)?;
    let width = statement.column_count();
    let parameters = parameters.iter().map(|value| parameter(value));
    let mut rows = statement.query(rusqlite::params_from_iter(parameters))?;
    let mut gathered = Vec::new();
    while let Some(row) = rows.next()? {
        let cells = (0..width).map(|index| row.get_ref(index).map(cell));
        gathered.push(cells.collect::<rusqlite::Result<_>>()?);
    }
    Ok(gathered)
}

fn cell(value: ValueRef) -> Cell {
    match value {
        ValueRef::Null => Cell::Null,
        ValueRef::Integer(number) => Cell::Number(number),
        ValueRef::Real(number) => Cell::Other(format!("{number:?}")),
        ValueRef::Text(bytes) => match std::str::from_utf8(bytes) {
            Ok(text) => Cell::Text(text.into()),
            Err(_) => Cell::Other(format!("{:?}", String::from_utf8_lossy(bytes))),
        },
        ValueRef::Blob(bytes) => Cell::Other(blob(bytes)),
    }
}

/// A blob as SQL writes it, cut where it gets long.
fn blob(bytes: &[u8]) -> String {
    const MOST: usize = 20;
    let digits = bytes.iter().take(MOST).map(|byte| format!("{byte:02X}"));
    let rest = if bytes.len() > MOST { ".." } else { "" };
    format!("X'{}{rest}'", digits.collect::<String>())
}

/// A value as a statement takes it. A tuple is compared part by part.
fn parameter(value: &Value) -> rusqlite::types::Value {
    match value {
        Value::Number(number) => (*number).into(),
        Value::Text(text) => text.clone().into(),
        Value::Boolean(boolean) => (*boolean).into(),
        Value::Tuple(_) => rusqlite::types::Null.into(),
    }
}

/// How SQLite treats what is stored in a column or compared with it.
#[derive(Clone, Copy, Debug, PartialEq, Eq)]
enum Affinity {
    Integer,
    Text,
    None,
    Real,
    Numeric,
    /// Whatever a strict table's ANY lets through.
    Any,
}

impl Affinity {
    /// By the rules of SQLite's documentation, in their order.
    fn of(declared: &str) -> Affinity {
        let declared = declared.to_uppercase();
        let has = |words: &[&str]| words.iter().any(|word| declared.contains(word));
        if declared == "ANY" {
            Affinity::Any
        } else if has(&["INT"]) {
            Affinity::Integer
        } else if has(&["CHAR", "CLOB", "TEXT"]) {
            Affinity::Text
        } else if declared.is_empty() || has(&["BLOB"]) {
            Affinity::None
        } else if has(&["REAL", "FLOA", "DOUB"]) {
            Affinity::Real
        } else {
            Affinity::Numeric
        }
    }

    fn name(self) -> &'static str {
        match self {
            Affinity::Integer => "INTEGER",
            Affinity::Text => "TEXT",
            Affinity::None => "none",
            Affinity::Real => "REAL",
            Affinity::Numeric => "NUMERIC",
            Affinity::Any => "that of each value",
        }
    }

    /// Whether values of a kind are stored in such a column as they are, and found again. Whole numbers are so by NUMERIC as by INTEGER; a text that looks
    /// like a number isn't by NUMERIC, and UUIDs, dates and timestamps never look so.
    fn suits(self, kind: Kind) -> bool {
        match self {
            Affinity::Integer => kind.is_number() || kind == Kind::Of(Single::Boolean),
            Affinity::Text => kind.is_text(),
            Affinity::Numeric => kind != Kind::Of(Single::Text),
            Affinity::None | Affinity::Real | Affinity::Any => false,
        }
    }
}

/// The storage class of a kind's values.
fn storage(kind: Kind) -> &'static str {
    match kind.is_text() {
        true => "text",
        false => "integer",
    }
}

fn collated(collation: &str) -> Misfit {
    Misfit {
        code: Code::E073,
        message: format!(
            "is compared by the collation {collation}, which calls different texts equal"
        ),
        help: match collation {
            "RTRIM" => "let a view have it without blanks at its end, as `rtrim(COLUMN)`, and name the view behind `from`",
            _ => "let a view have it in one case, as `lower(COLUMN)`, and name the view behind `from`",
        }
        .into(),
    }
}

fn unsuited(column: &Column, kind: Kind, affinity: Affinity) -> Misfit {
    let declared = match column.written.as_str() {
        "" => "has no type in the database".to_string(),
        written => format!("has the type {written} in the database"),
    };
    let trap = kind == Kind::Of(Single::Text) && affinity == Affinity::Numeric;
    if trap || matches!(affinity, Affinity::None | Affinity::Any) {
        return Misfit {
            code: Code::E075,
            message: format!(
                "{declared}, and so the affinity {}: equal values of it may be stored in two ways",
                affinity.name()
            ),
            help: format!(
                "let a view convert it, as `CAST(COLUMN AS {})`, and name the view behind `from`",
                storage(kind).to_uppercase()
            ),
        };
    }
    Misfit {
        code: Code::E072,
        message: format!("{declared}: its values are no {kind}"),
        help: match affinity {
            Affinity::Real => "cells are whole numbers: let a view have it in tenths or hundredths, as `CAST(round(10 * COLUMN) AS INTEGER)`".into(),
            _ => "write the type that the database has, or let a view convert it".to_string(),
        },
    }
}

impl Database for Sqlite {
    fn begin(&mut self, _tables: &[TableName]) -> Result<String, Failure> {
        if !self.connection.is_autocommit() {
            self.execute("ROLLBACK")?;
        }
        self.execute("PRAGMA query_only = ON; BEGIN")?;
        // the snapshot begins with the first read
        self.rows("SELECT count(*) FROM sqlite_master", &[])?;
        let time = self.rows("SELECT datetime('now', 'localtime')", &[])?;
        Ok(time.iter().flatten().filter_map(Cell::text).collect())
    }

    fn relation(&mut self, name: &TableName) -> Result<Option<Relation>, Failure> {
        sqlite_catalog::relation(self, name)
    }

    fn relations(&mut self) -> Result<Vec<TableName>, Failure> {
        sqlite_catalog::relations(self)
    }

    fn fit(&self, column: &Column, kind: Kind) -> Result<Fit, Misfit> {
        if let Some(collation) = column.collation.as_deref().filter(|_| kind.is_text()) {
            return Err(collated(collation));
        }
        // 1 is a number and yes, which are no one value of a tuple
        let equality = match kind {
            Kind::Of(single @ Single::Boolean) => single.name(),
            _ => storage(kind),
        };
        let affinity = Affinity::of(&column.base);
        if affinity == Affinity::None && column.derived {
            let (column, storage) = (quoted(&column.name), storage(kind));
            let strays = format!("typeof(t.{column}) NOT IN ('null', '{storage}')");
            return Ok(Fit {
                equality,
                strays: Some(strays),
            });
        }
        match affinity.suits(kind) {
            true => Ok(Fit {
                equality,
                strays: None,
            }),
            false => Err(unsuited(column, kind, affinity)),
        }
    }

    fn natural(&self, column: &Column) -> Option<Single> {
        let declared = column.base.to_uppercase();
        let has = |word: &str| declared.contains(word);
        match Affinity::of(&declared) {
            Affinity::Integer => Some(Single::Bigint),
            Affinity::Text => Some(Single::Text),
            Affinity::Numeric if has("UUID") || has("GUID") => Some(Single::Uuid),
            Affinity::Numeric if has("TIMESTAMP") || has("DATETIME") => Some(Single::Timestamp),
            Affinity::Numeric if has("DATE") => Some(Single::Date),
            Affinity::Numeric if has("BOOL") => Some(Single::Boolean),
            _ => None,
        }
    }

    fn spelling<'a>(&self, columns: &'a [Column], name: &str) -> Option<&'a Column> {
        let same = |column: &&Column| column.name.eq_ignore_ascii_case(name);
        columns.iter().find(same)
    }

    fn parameter(&self, _column: &Column, number: usize) -> String {
        format!("?{number}")
    }

    fn order(&self, column: &Column) -> String {
        format!("t.{}", quoted(&column.name))
    }

    fn shown(&self, column: &Column) -> String {
        let name = quoted(&column.name);
        format!("CASE typeof(t.{name}) WHEN 'blob' THEN quote(t.{name}) ELSE CAST(t.{name} AS TEXT) END")
    }

    fn has_form(&self, kind: Kind, text: &str) -> bool {
        match kind {
            Kind::Of(Single::Uuid) => forms::is_uuid(text),
            Kind::Of(Single::Date) => forms::is_date(text),
            Kind::Of(Single::Timestamp) => forms::is_timestamp(text),
            _ => true,
        }
    }

    fn may_have(&self, _kind: Kind, _text: &str) -> bool {
        true
    }

    fn canonical(
        &mut self,
        _column: &Column,
        kind: Kind,
        text: &str,
    ) -> Result<Option<String>, Failure> {
        Ok(self.has_form(kind, text).then(|| text.to_string()))
    }

    fn rows(&mut self, sql: &str, parameters: &[&Value]) -> Result<Vec<Vec<Cell>>, Failure> {
        query(&self.connection, sql, parameters).map_err(|error| self.failure(error))
    }
}

#[cfg(test)]
mod tests {
    use super::*;

    #[test]
    fn affinities_as_sqlite_documents_them() {
        for (declared, affinity) in [
            ("INT", Affinity::Integer),
            ("UNSIGNED BIG INT", Affinity::Integer),
            ("CHARINT", Affinity::Integer),
            ("FLOATING POINT", Affinity::Integer),
            ("varchar(20)", Affinity::Text),
            ("NATIVE CHARACTER(70)", Affinity::Text),
            ("", Affinity::None),
            ("BLOB", Affinity::None),
            ("DOUBLE PRECISION", Affinity::Real),
            ("STRING", Affinity::Numeric),
            ("UUID", Affinity::Numeric),
            ("DECIMAL(10,5)", Affinity::Numeric),
            ("ANY", Affinity::Any),
        ] {
            assert_eq!(Affinity::of(declared), affinity, "{declared}");
        }
    }

    #[test]
    fn a_writer_is_not_waited_for_for_ever() {
        let file = std::env::temp_dir().join(format!("wurzsige-busy-{}", std::process::id()));
        let writer = Connection::open(&file).expect("a file");
        writer
            .execute_batch("CREATE TABLE t (a); BEGIN EXCLUSIVE; INSERT INTO t VALUES (1)")
            .expect("a writer");
        let opened = Sqlite::open_waiting(file.to_str().expect("a path"), Duration::ZERO);
        let begun = opened.and_then(|mut sqlite| sqlite.begin(&[]));
        drop(writer);
        std::fs::remove_file(&file).expect("the file");
        let Err(Failure::Unreadable(why)) = begun else {
            panic!("{begun:?}");
        };
        assert!(why.contains("it is locked"), "{why}");
    }

    #[test]
    fn long_blobs_are_cut() {
        assert_eq!(blob(&[0, 255]), "X'00FF'");
        assert_eq!(blob(&[0xab; 21]), format!("X'{}..'", "AB".repeat(20)));
    }
}
