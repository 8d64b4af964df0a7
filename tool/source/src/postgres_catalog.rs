//! PostgreSQL's catalog.

use design::Code;

use crate::catalog::{Column, ForeignKey, Misfit, Relation, TableName, Unique};
use crate::database::{Cell, Database};
use crate::postgres::Postgres;
use crate::{Failure, Value};

/// The number of the table with a name, its kind, whether rows of tables that inherit from it count among its own, whether a policy hides rows, and its schema
/// and name.
const RELATION: &str = "
    SELECT c.oid::int8, c.relkind::text,
        c.relkind = 'r' AND EXISTS (SELECT FROM pg_inherits AS i WHERE i.inhparent = c.oid),
        row_security_active(c.oid), n.nspname::text, c.relname::text
    FROM pg_class AS c JOIN pg_namespace AS n ON n.oid = c.relnamespace
    WHERE c.oid = to_regclass($1::text) AND c.relkind IN ('r', 'p', 'v', 'm', 'f')";

/// A materialized view or a foreign table that a table is, or that stands behind a view or a partition.
const BEHIND: &str = "
    WITH RECURSIVE used (oid) AS (
        SELECT $1::int8::oid
        UNION
        SELECT n.oid
        FROM used AS u
        CROSS JOIN LATERAL (
            SELECT d.refobjid
            FROM pg_class AS v
            JOIN pg_rewrite AS r ON r.ev_class = v.oid
            JOIN pg_depend AS d ON d.classid = 'pg_rewrite'::regclass AND d.objid = r.oid AND d.refclassid = 'pg_class'::regclass
            WHERE v.oid = u.oid AND v.relkind = 'v'
            UNION ALL
            SELECT i.inhrelid FROM pg_inherits AS i WHERE i.inhparent = u.oid
        ) AS n (oid)
    )
    SELECT c.relname::text, c.relkind = 'f'
    FROM used JOIN pg_class AS c USING (oid)
    WHERE c.relkind IN ('m', 'f')
    ORDER BY c.relname LIMIT 1";

/// The columns, each with its type as it is written, the type behind its domains, the collation if it isn't deterministic, and whether it is never NULL.
const COLUMNS: &str = "
    SELECT a.attname::text, format_type(a.atttypid, a.atttypmod),
        (
            WITH RECURSIVE base AS (
                SELECT t.* FROM pg_type AS t WHERE t.oid = a.atttypid
                UNION ALL
                SELECT t.* FROM base AS b JOIN pg_type AS t ON t.oid = b.typbasetype WHERE b.typtype = 'd'
            )
            SELECT CASE WHEN n.nspname = 'pg_catalog' OR b.typname = 'citext' THEN b.typname ELSE n.nspname || '.' || b.typname END::text
            FROM base AS b JOIN pg_namespace AS n ON n.oid = b.typnamespace
            WHERE b.typtype <> 'd'
        ),
        (SELECT l.collname::text FROM pg_collation AS l WHERE l.oid = a.attcollation AND NOT l.collisdeterministic),
        a.attnotnull
    FROM pg_attribute AS a
    WHERE a.attrelid = $1::int8::oid AND a.attnum > 0 AND NOT a.attisdropped
    ORDER BY a.attnum";

/// The columns of unique indexes, each with why the index says nothing of every row.
const UNIQUE: &str = "
    SELECT i.indexrelid::int8, i.indisprimary,
        CASE
            WHEN i.indpred IS NOT NULL THEN 'has a condition (WHERE ' || pg_get_expr(i.indpred, i.indrelid) || ')'
            WHEN i.indexprs IS NOT NULL THEN 'is on an expression'
            WHEN NOT i.indimmediate THEN 'is deferrable'
            WHEN NOT i.indisvalid OR NOT i.indisready THEN 'is not valid'
        END,
        a.attname::text
    FROM pg_index AS i
    CROSS JOIN generate_series(0, 31) AS k
    LEFT JOIN pg_attribute AS a ON a.attrelid = i.indrelid AND a.attnum = i.indkey[k]
    WHERE i.indrelid = $1::int8::oid AND i.indisunique AND k < i.indnkeyatts
    ORDER BY NOT i.indisprimary, i.indexrelid, k";

/// The columns of foreign keys, here and there.
const FOREIGN: &str = "
    SELECT c.oid::int8, CASE WHEN NOT pg_table_is_visible(f.oid) THEN n.nspname::text END, f.relname::text, a.attname::text, b.attname::text
    FROM pg_constraint AS c
    CROSS JOIN LATERAL unnest(c.conkey, c.confkey) WITH ORDINALITY AS k (here, there, place)
    JOIN pg_class AS f ON f.oid = c.confrelid
    JOIN pg_namespace AS n ON n.oid = f.relnamespace
    JOIN pg_attribute AS a ON a.attrelid = c.conrelid AND a.attnum = k.here
    JOIN pg_attribute AS b ON b.attrelid = c.confrelid AND b.attnum = k.there
    WHERE c.conrelid = $1::int8::oid AND c.contype = 'f' AND c.conparentid = 0
    ORDER BY c.oid, k.place";

/// All tables and views but the system's, and but partitions.
const RELATIONS: &str = "
    SELECT CASE WHEN NOT pg_table_is_visible(c.oid) THEN n.nspname::text END, c.relname::text
    FROM pg_class AS c JOIN pg_namespace AS n ON n.oid = c.relnamespace
    WHERE c.relkind IN ('r', 'p', 'v', 'm', 'f') AND NOT c.relispartition
        AND n.nspname <> 'information_schema' AND n.nspname NOT LIKE 'pg\\_%'
    ORDER BY 1 NULLS FIRST, 2";

/// A table that a name was found to mean.
pub(crate) struct Found {
    /// The name that was looked for.
    pub(crate) name: TableName,
    /// The name with the schema in which it was found.
    pub(crate) whole: TableName,
    /// Whether a transaction can lock it.
    pub(crate) lockable: bool,
}

/// Looks names up along the search path, those that are there.
pub(crate) fn find(postgres: &mut Postgres, names: &[TableName]) -> Result<Vec<Found>, Failure> {
    let mut found = Vec::new();
    for name in names {
        let rows = postgres.rows(RELATION, &[&Value::Text(name.quoted())])?;
        found.extend(rows.iter().map(|row| Found {
            name: name.clone(),
            whole: table_name(&row[4], &row[5]),
            lockable: ["r", "p", "v"].contains(&name_of(&row[1]).as_str()),
        }));
    }
    Ok(found)
}

pub(crate) fn relations(postgres: &mut Postgres) -> Result<Vec<TableName>, Failure> {
    let rows = postgres.rows(RELATIONS, &[])?;
    let name = |row: &Vec<Cell>| table_name(&row[0], &row[1]);
    Ok(rows.iter().map(name).collect())
}

fn table_name(schema: &Cell, name: &Cell) -> TableName {
    TableName {
        schema: schema.text(),
        name: name_of(name),
    }
}

/// The text of a cell that is never NULL.
fn name_of(cell: &Cell) -> String {
    cell.text().unwrap_or_default()
}

pub(crate) fn relation(
    postgres: &mut Postgres,
    name: &TableName,
) -> Result<Option<Relation>, Failure> {
    let found = postgres.rows(RELATION, &[&Value::Text(name.quoted())])?;
    let Some(
        [Cell::Number(number), Cell::Text(kind), Cell::Number(inherited), Cell::Number(hidden), schema, own],
    ) = found.first().map(|row| &row[..])
    else {
        return Ok(None);
    };
    let name = table_name(schema, own);
    let number = Value::Number(*number);
    let inherited = *inherited == 1;
    let refused = match *hidden {
        1 => Some(hidden_rows()),
        _ => behind(postgres, &number)?,
    };
    Ok(Some(Relation {
        name,
        columns: columns(postgres, &number, kind == "v", inherited)?,
        unique: unique(postgres, &number, inherited)?,
        foreign: foreign(postgres, &number)?,
        refused,
    }))
}

fn hidden_rows() -> Misfit {
    Misfit {
        code: Code::E078,
        message: "has rows that a policy of the database may hide from this user".into(),
        help: "connect as a user whom row security lets see all rows: a desk with a part of them would call wrong answers complete".into(),
    }
}

/// Why the rows aren't all of the snapshot.
fn behind(postgres: &mut Postgres, number: &Value) -> Result<Option<Misfit>, Failure> {
    let rows = postgres.rows(BEHIND, &[number])?;
    let Some([Cell::Text(name), Cell::Number(foreign)]) = rows.first().map(|row| &row[..]) else {
        return Ok(None);
    };
    let what = match foreign {
        1 => "foreign table",
        _ => "materialized view",
    };
    Ok(Some(Misfit {
        code: Code::E077,
        message: format!("reads the {what} `{name}`, whose rows may change within a snapshot"),
        help: "name the tables or views behind it".into(),
    }))
}

fn columns(
    postgres: &mut Postgres,
    number: &Value,
    view: bool,
    inherited: bool,
) -> Result<Vec<Column>, Failure> {
    let rows = postgres.rows(COLUMNS, &[number])?;
    let columns = rows.iter().map(|row| Column {
        name: name_of(&row[0]),
        written: name_of(&row[1]),
        base: name_of(&row[2]),
        collation: row[3].text(),
        filled: row[4] == Cell::Number(1) && !inherited,
        derived: view,
    });
    Ok(columns.collect())
}

/// The unique indexes. One of a table from which others inherit says nothing of their rows.
fn unique(
    postgres: &mut Postgres,
    number: &Value,
    inherited: bool,
) -> Result<Vec<Unique>, Failure> {
    let rows = postgres.rows(UNIQUE, &[number])?;
    let mut last = None;
    let mut unique: Vec<Unique> = Vec::new();
    for row in rows {
        if last.as_ref() != Some(&row[0]) {
            last = Some(row[0].clone());
            let inherits = inherited.then(|| "isn't of the tables that inherit from it".into());
            unique.push(Unique {
                columns: Vec::new(),
                primary: row[1] == Cell::Number(1),
                weakness: row[2].text().or(inherits),
            });
        }
        if let Some(last) = unique.last_mut() {
            last.columns.extend(row[3].text());
        }
    }
    Ok(unique)
}

fn foreign(postgres: &mut Postgres, number: &Value) -> Result<Vec<ForeignKey>, Failure> {
    let rows = postgres.rows(FOREIGN, &[number])?;
    let mut last = None;
    let mut keys: Vec<ForeignKey> = Vec::new();
    for row in rows {
        if last.as_ref() != Some(&row[0]) {
            last = Some(row[0].clone());
            keys.push(ForeignKey {
                columns: Vec::new(),
                target: table_name(&row[1], &row[2]),
                targets: Vec::new(),
            });
        }
        if let Some(last) = keys.last_mut() {
            last.columns.push(name_of(&row[3]));
            last.targets.push(name_of(&row[4]));
        }
    }
    Ok(keys)
}
