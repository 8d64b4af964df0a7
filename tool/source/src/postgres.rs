//! PostgreSQL: a connection of libpq, in one read-only transaction that sees one state of the database.

use std::collections::HashMap;

use design::{Code, Single};

use crate::catalog::{quoted, Column, Misfit, Relation, TableName};
use crate::database::{Cell, Database, Fit};
use crate::kind::Kind;
use crate::libpq::{Connection, Refusal};
use crate::postgres_catalog::{self, Found};
use crate::{forms, Failure, Value};

/// What a connection is set to: dates in ISO's order and times in UTC, so that equal values have one text; rows that a policy would hide are an error and not
/// left out; and a server that can, looks whether we are still there.
const SETTINGS: &str = "
    SET DateStyle = 'ISO, YMD';
    SET TimeZone = 'UTC';
    SET row_security = off;
    SET default_transaction_read_only = on;
    SELECT set_config(name, '1000', false) FROM pg_settings WHERE name = 'client_connection_check_interval'";

/// How texts are compared.
const TEXT: &str = Single::Text.name();

/// The numbers of types whose values are whole numbers, and of booleans.
const NUMBERS: [u32; 3] = [20, 21, 23];
const BOOLEAN: u32 = 16;

/// A PostgreSQL server.
pub(crate) struct Postgres {
    connection: Connection,
    /// The time zone in which the time of a snapshot is told.
    zone: String,
    /// The names of prepared statements.
    statements: HashMap<String, String>,
    /// What the tables' names meant when the snapshot was taken: a name is looked up in the latest catalog, whatever the snapshot.
    found: Vec<Found>,
}

impl Postgres {
    /// Connects as a conninfo says.
    pub(crate) fn open(conninfo: &str) -> Result<Postgres, Failure> {
        let connection = Connection::open(conninfo);
        let connection = connection.map_err(|refusal| Failure::Unreadable(refusal.message))?;
        let mut postgres = Postgres {
            connection,
            zone: String::new(),
            statements: HashMap::new(),
            found: Vec::new(),
        };
        postgres.zone = one_text(&postgres.run("SHOW TimeZone")?);
        postgres.run(SETTINGS)?;
        Ok(postgres)
    }

    /// What the database is called.
    pub(crate) fn title(&mut self) -> Result<String, Failure> {
        let rows = self.run("SELECT current_database()")?;
        Ok(one_text(&rows))
    }

    /// Runs statements that are needed once.
    fn run(&mut self, sql: &str) -> Result<Vec<Vec<Cell>>, Failure> {
        let table = self.connection.run(sql);
        table
            .map(cells)
            .map_err(|refusal| Failure::Unreadable(refusal.message))
    }

    /// The name of a prepared statement.
    fn prepared(&mut self, sql: &str) -> Result<String, Refusal> {
        if let Some(name) = self.statements.get(sql) {
            return Ok(name.clone());
        }
        let name = format!("s{}", self.statements.len());
        self.connection.prepare(&name, sql)?;
        self.statements.insert(sql.into(), name.clone());
        Ok(name)
    }

    /// What a statement's refusal means. The transaction goes on from where it was before the statement, in the same snapshot; only a value that can't be
    /// what it is asked to be (a code of class 22) is no fault of the connection's.
    fn refused(&mut self, refusal: Refusal) -> Failure {
        let again = self.connection.run("ROLLBACK TO SAVEPOINT reading");
        match again.is_ok() && refusal.code.starts_with("22") {
            true => Failure::Unfit(refusal.message),
            false => Failure::Unreadable(refusal.message),
        }
    }
}

fn cells(table: crate::libpq::Table) -> Vec<Vec<Cell>> {
    let types = table.types;
    let row = |row: Vec<Option<Vec<u8>>>| row.into_iter().zip(&types).map(cell).collect();
    table.rows.into_iter().map(row).collect()
}

fn cell((value, kind): (Option<Vec<u8>>, &u32)) -> Cell {
    let Some(bytes) = value else {
        return Cell::Null;
    };
    let text = match String::from_utf8(bytes) {
        Ok(text) => text,
        Err(wrong) => {
            return Cell::Other(format!("{:?}", String::from_utf8_lossy(wrong.as_bytes())))
        }
    };
    match (text.as_str(), *kind) {
        ("t", BOOLEAN) => Cell::Number(1),
        ("f", BOOLEAN) => Cell::Number(0),
        (number, kind) if NUMBERS.contains(&kind) => match number.parse() {
            Ok(number) => Cell::Number(number),
            Err(_) => Cell::Other(text),
        },
        _ => Cell::Text(text),
    }
}

/// The text of a statement that gives one.
fn one_text(rows: &[Vec<Cell>]) -> String {
    rows.iter().flatten().filter_map(Cell::text).collect()
}

/// What a type of PostgreSQL's is compared as: by types with the same word, values are equal alike.
fn equality(base: &str) -> Option<&'static str> {
    match base {
        "timestamptz" => Some("timestamptz"),
        _ => natural(base).map(Single::name),
    }
}

fn natural(base: &str) -> Option<Single> {
    Some(match base {
        "int2" | "int4" | "int8" => Single::Bigint,
        "text" | "varchar" => Single::Text,
        "uuid" => Single::Uuid,
        "date" => Single::Date,
        "timestamp" | "timestamptz" => Single::Timestamp,
        "bool" => Single::Boolean,
        _ => return None,
    })
}

fn misfit(column: &Column, kind: Kind) -> Misfit {
    let written = &column.written;
    match column.base.as_str() {
        "bpchar" => Misfit {
            code: Code::E074,
            message: format!("has the type {written} in the database, which pads with blanks and doesn't count them"),
            help: "let a view have it as `COLUMN::text`, without the blanks at its end, and name the view behind `from`".into(),
        },
        "citext" => Misfit {
            code: Code::E073,
            message: "has the type citext in the database, which calls different texts equal".into(),
            help: "let a view have it in one case, as `lower(COLUMN::text)`, and name the view behind `from`".into(),
        },
        "float4" | "float8" | "numeric" | "money" => Misfit {
            code: Code::E072,
            message: format!("has the type {written} in the database: its values are no {kind}"),
            help: "let a view have it as a whole number, as `COLUMN::bigint` or, in tenths, `round(10 * COLUMN)::bigint`, and name the view behind `from`".into(),
        },
        _ => Misfit {
            code: Code::E072,
            message: format!("has the type {written} in the database: its values are no {kind}"),
            help: "write the type that the database has, or let a view convert it, as `COLUMN::text`".into(),
        },
    }
}

impl Database for Postgres {
    fn begin(&mut self, tables: &[TableName]) -> Result<String, Failure> {
        // statements that were prepared for tables that have changed since are refused
        self.run("ROLLBACK; DEALLOCATE ALL")?;
        self.statements.clear();
        self.found = postgres_catalog::find(self, tables)?;
        self.run("BEGIN ISOLATION LEVEL REPEATABLE READ READ ONLY")?;
        // Before the snapshot: a table that is emptied or made anew between the snapshot and our first look at it would look empty.
        let lockable = self.found.iter().filter(|found| found.lockable);
        let mut names: Vec<String> = lockable.map(|found| found.whole.quoted()).collect();
        names.sort();
        names.dedup();
        if !names.is_empty() {
            let names = names.join(", ");
            self.run(&format!("LOCK TABLE {names} IN ACCESS SHARE MODE"))?;
        }
        let zone = self.zone.replace('\'', "''");
        let time = self.run(&format!(
            "SELECT to_char(now() AT TIME ZONE '{zone}', 'YYYY-MM-DD HH24:MI:SS')"
        ))?;
        self.run("SAVEPOINT reading")?;
        Ok(one_text(&time))
    }

    fn relation(&mut self, name: &TableName) -> Result<Option<Relation>, Failure> {
        let found = self.found.iter().find(|found| found.name == *name);
        match found.map(|found| found.whole.clone()) {
            Some(whole) => postgres_catalog::relation(self, &whole),
            None => postgres_catalog::relation(self, name),
        }
    }

    fn relations(&mut self) -> Result<Vec<TableName>, Failure> {
        postgres_catalog::relations(self)
    }

    fn fit(&self, column: &Column, kind: Kind) -> Result<Fit, Misfit> {
        let own = natural(&column.base);
        let fits =
            own.is_some_and(|own| Kind::Of(own) == kind || own.is_number() && kind.is_number());
        let Some(equality) = equality(&column.base).filter(|_| fits) else {
            return Err(misfit(column, kind));
        };
        if let Some(collation) = &column.collation {
            return Err(Misfit {
                code: Code::E073,
                message: format!("is compared by the collation {collation}, which calls different texts equal"),
                help: "let a view have it in one form, as `lower(COLUMN) COLLATE \"C\"`, and name the view behind `from`".into(),
            });
        }
        Ok(Fit {
            equality,
            strays: None,
        })
    }

    fn natural(&self, column: &Column) -> Option<Single> {
        natural(&column.base)
    }

    fn spelling<'a>(&self, columns: &'a [Column], name: &str) -> Option<&'a Column> {
        columns.iter().find(|column| column.name == name)
    }

    fn parameter(&self, column: &Column, number: usize) -> String {
        // a number is compared as the widest, so that none is out of range
        let kind = equality(&column.base).unwrap_or(TEXT);
        format!("${number}::{kind}")
    }

    fn order(&self, column: &Column) -> String {
        let name = quoted(&column.name);
        match equality(&column.base) {
            Some(TEXT) => format!("t.{name} COLLATE \"C\""),
            _ => format!("t.{name}"),
        }
    }

    fn shown(&self, column: &Column) -> String {
        format!("t.{}::text", quoted(&column.name))
    }

    fn has_form(&self, _kind: Kind, _text: &str) -> bool {
        true
    }

    fn may_have(&self, kind: Kind, text: &str) -> bool {
        match kind {
            Kind::Of(Single::Uuid) => forms::is_uuid(text),
            _ => !text.contains('\0'),
        }
    }

    fn canonical(
        &mut self,
        column: &Column,
        kind: Kind,
        text: &str,
    ) -> Result<Option<String>, Failure> {
        let written = match kind {
            Kind::Of(Single::Uuid) => return Ok(forms::is_uuid(text).then(|| text.to_lowercase())),
            Kind::Of(Single::Date) => forms::is_date(text),
            Kind::Of(Single::Timestamp) => forms::is_timestamp(text),
            _ => return Ok(self.may_have(kind, text).then(|| text.to_string())),
        };
        if !written && !matches!(text, "infinity" | "-infinity") {
            return Ok(None);
        }
        let sql = format!("SELECT ({})::text", self.parameter(column, 1));
        match self.rows(&sql, &[&Value::Text(text.into())]) {
            Ok(rows) => Ok(Some(one_text(&rows))),
            Err(Failure::Unfit(_)) => Ok(None),
            Err(failure) => Err(failure),
        }
    }

    fn rows(&mut self, sql: &str, parameters: &[&Value]) -> Result<Vec<Vec<Cell>>, Failure> {
        let values: Vec<String> = parameters.iter().map(|value| value.to_string()).collect();
        let name = self.prepared(sql);
        let got = name.and_then(|name| self.connection.execute(&name, &values));
        match got {
            Ok(table) => Ok(cells(table)),
            Err(refusal) => Err(self.refused(refusal)),
        }
    }
}
