//! SQLite's catalog: its pragmas as tables, and the collations of columns by what they do, since no pragma tells a view's.

use std::collections::BTreeMap;

use crate::catalog::{quoted, Column, ForeignKey, Relation, TableName, Unique};
use crate::database::{Cell, Database};
use crate::sqlite::Sqlite;
use crate::{Failure, Value};

/// The only schema of a file.
const SCHEMA: &str = "main";

/// Two texts each that one of SQLite's own collations calls equal, and BINARY doesn't.
const COLLATIONS: [(&str, &str, &str); 2] = [("NOCASE", "A", "a"), ("RTRIM", "A ", "A")];

pub(crate) fn relations(sqlite: &mut Sqlite) -> Result<Vec<TableName>, Failure> {
    let rows = sqlite.rows(
        "SELECT name FROM sqlite_master WHERE type IN ('table', 'view') AND name NOT LIKE 'sqlite\\_%' ESCAPE '\\' ORDER BY name",
        &[],
    )?;
    Ok(texts(&rows)
        .iter()
        .map(|name| TableName::plain(name))
        .collect())
}

pub(crate) fn relation(sqlite: &mut Sqlite, name: &TableName) -> Result<Option<Relation>, Failure> {
    let other = |schema: &String| !schema.eq_ignore_ascii_case(SCHEMA);
    if name.schema.as_ref().is_some_and(other) {
        return Ok(None);
    }
    let found = sqlite.rows(
        "SELECT name, type = 'view' FROM sqlite_master WHERE type IN ('table', 'view') AND name = ?1 COLLATE NOCASE",
        &[&Value::Text(name.name.clone())],
    )?;
    let Some([Cell::Text(table), Cell::Number(view)]) = found.first().map(|row| &row[..]) else {
        return Ok(None);
    };
    let spelt = TableName::plain(table);
    let (columns, keys) = columns(sqlite, table, *view == 1)?;
    Ok(Some(Relation {
        unique: unique(sqlite, table, keys)?,
        foreign: foreign(sqlite, table)?,
        name: spelt,
        columns,
        refused: None,
    }))
}

/// The texts of a statement with one column.
fn texts(rows: &[Vec<Cell>]) -> Vec<String> {
    rows.iter().flatten().filter_map(Cell::text).collect()
}

/// The columns, and the names of those of the primary key in its order.
fn columns(
    sqlite: &mut Sqlite,
    table: &str,
    view: bool,
) -> Result<(Vec<Column>, Vec<String>), Failure> {
    // hidden: 1 is a virtual table's, which no `*` shows; 2 and 3 are generated ones
    let rows = sqlite.rows(
        "SELECT name, type, \"notnull\", pk FROM pragma_table_xinfo(?1) WHERE hidden <> 1 ORDER BY cid",
        &[&Value::Text(table.into())],
    )?;
    let mut columns = Vec::new();
    let mut keys = BTreeMap::new();
    for row in rows {
        let [Cell::Text(name), Cell::Text(written), Cell::Number(filled), Cell::Number(key)] =
            &row[..]
        else {
            continue;
        };
        if *key > 0 {
            keys.insert(*key, name.clone());
        }
        columns.push(Column {
            collation: collation(sqlite, table, name)?,
            name: name.clone(),
            written: written.clone(),
            base: written.clone(),
            filled: *filled == 1,
            derived: view,
        });
    }
    Ok((columns, keys.into_values().collect()))
}

/// What SQLite says of a collation that a program has brought along, and that isn't here.
const FOREIGN: &str = "no such collation sequence: ";

/// The collation of a column that calls different texts equal, or may do so. A text put below the column's rows, of which there are none here, is compared as they are.
fn collation(sqlite: &mut Sqlite, table: &str, column: &str) -> Result<Option<String>, Failure> {
    let (table, column) = (quoted(table), quoted(column));
    for (name, left, right) in COLLATIONS {
        let sql = format!(
            "SELECT count(*) FROM (SELECT t.{column} AS x FROM {table} AS t WHERE 0 UNION ALL SELECT '{left}') WHERE x = '{right}'"
        );
        let found = match sqlite.rows(&sql, &[]) {
            Err(Failure::Unreadable(why)) if why.contains(FOREIGN) => {
                let (_, collation) = why.split_once(FOREIGN).unwrap_or_default();
                return Ok(Some(collation.into()));
            }
            found => found?,
        };
        if found != [[Cell::Number(0)]] {
            return Ok(Some(name.into()));
        }
    }
    Ok(None)
}

/// The unique indexes. A primary key without an index is the row's own number.
fn unique(sqlite: &mut Sqlite, table: &str, keys: Vec<String>) -> Result<Vec<Unique>, Failure> {
    let indexes = sqlite.rows(
        "SELECT name, origin = 'pk', partial FROM pragma_index_list(?1) WHERE \"unique\" ORDER BY seq DESC",
        &[&Value::Text(table.into())],
    )?;
    let mut unique = Vec::new();
    for row in indexes {
        let [Cell::Text(index), Cell::Number(primary), Cell::Number(partial)] = &row[..] else {
            continue;
        };
        let names = sqlite.rows(
            "SELECT name FROM pragma_index_xinfo(?1) WHERE key ORDER BY seqno",
            &[&Value::Text(index.clone())],
        )?;
        let expression = names.iter().any(|row| row[..] == [Cell::Null]);
        let weakness = match (partial, expression) {
            (1, _) => Some(partial_index(sqlite, index)?),
            (_, true) => Some("is on an expression".into()),
            _ => None,
        };
        unique.push(Unique {
            columns: texts(&names),
            primary: *primary == 1,
            weakness,
        });
    }
    if let ([_], false) = (&keys[..], unique.iter().any(|unique| unique.primary)) {
        let row_number = Unique {
            columns: keys,
            primary: true,
            weakness: None,
        };
        unique.insert(0, row_number);
    }
    Ok(unique)
}

/// What is to be said of an index that isn't of all rows.
fn partial_index(sqlite: &mut Sqlite, index: &str) -> Result<String, Failure> {
    let sql = sqlite.rows(
        "SELECT sql FROM sqlite_master WHERE type = 'index' AND name = ?1",
        &[&Value::Text(index.into())],
    )?;
    let sql = texts(&sql).concat();
    let upper = sql.to_ascii_uppercase();
    Ok(match upper.find("WHERE") {
        Some(at) => format!("has a condition ({})", sql[at..].replace('\n', " ")),
        None => "has a condition".into(),
    })
}

fn foreign(sqlite: &mut Sqlite, table: &str) -> Result<Vec<ForeignKey>, Failure> {
    let rows = sqlite.rows(
        "SELECT id, \"table\", \"from\", \"to\" FROM pragma_foreign_key_list(?1) ORDER BY id DESC, seq",
        &[&Value::Text(table.into())],
    )?;
    let mut last = None;
    let mut keys: Vec<ForeignKey> = Vec::new();
    for row in rows {
        let [id, Cell::Text(target), Cell::Text(from), to] = &row[..] else {
            continue;
        };
        if last.as_ref() != Some(id) {
            last = Some(id.clone());
            keys.push(ForeignKey {
                columns: Vec::new(),
                target: TableName::plain(target),
                targets: Vec::new(),
            });
        }
        if let Some(key) = keys.last_mut() {
            key.columns.push(from.clone());
            key.targets.extend(to.text());
        }
    }
    for key in &mut keys {
        settle(sqlite, key)?;
    }
    Ok(keys)
}

/// Spells a foreign key's target as the catalog does; a key that names no columns there means the primary key.
fn settle(sqlite: &mut Sqlite, key: &mut ForeignKey) -> Result<(), Failure> {
    let rows = sqlite.rows(
        "SELECT m.name, c.name, c.pk FROM sqlite_master AS m, pragma_table_xinfo(m.name) AS c WHERE m.type = 'table' AND m.name = ?1 COLLATE NOCASE ORDER BY c.pk",
        &[&Value::Text(key.target.name.clone())],
    )?;
    let mut primary = Vec::new();
    for row in &rows {
        let [Cell::Text(table), Cell::Text(column), Cell::Number(place)] = &row[..] else {
            continue;
        };
        key.target = TableName::plain(table);
        if *place > 0 {
            primary.push(column.clone());
        }
        let same = |target: &&mut String| target.eq_ignore_ascii_case(column);
        if let Some(target) = key.targets.iter_mut().find(same) {
            *target = column.clone();
        }
    }
    if key.targets.is_empty() {
        key.targets = primary;
    }
    Ok(())
}
