//! Statements for the rows of a design's tables, and what they give as records, each value held to its column.

use design::{Design, Place, Single};

use crate::bind::{Binding, BoundColumn, BoundTable, Part};
use crate::catalog::quoted;
use crate::database::{Cell, Database};
use crate::kind::Kind;
use crate::{Condition, Failure, Record, Value};

/// All rows that meet a condition, by key, rising.
pub(crate) fn fetch(
    database: &mut dyn Database,
    design: &Design,
    binding: &Binding,
    condition: &Condition,
) -> Result<Vec<Record>, Failure> {
    let (place, terms) = match condition {
        Condition::Value {
            column,
            value,
            issue,
        } => (*column, equal(database, binding, *column, value, *issue)),
        Condition::Range { column, low, high } => {
            (*column, between(database, binding, *column, *low, *high))
        }
    };
    let table = &binding.tables[place.table];
    let (terms, values) = match terms {
        Terms::Of(terms, values) => (terms, values),
        Terms::Never => return Ok(Vec::new()),
        Terms::Senseless => {
            let name = design.column_name(place);
            return Err(Failure::Unfit(format!(
                "{name} is asked for what it can't have: {condition:?}"
            )));
        }
    };
    let sql = format!("{} WHERE {}", select(database, table), terms.join(" AND "));
    let values: Vec<&Value> = values.iter().collect();
    let rows = database.rows(&sql, &values)?;
    let mut records = Vec::with_capacity(rows.len());
    for row in rows {
        let record = record(database, design, binding, place.table, row)?;
        meets(design, &record, condition)?;
        records.push(record);
    }
    // the order is that of values, the same for every database
    records.sort_by(|left, right| key(table, left).cmp(&key(table, right)));
    Ok(records)
}

/// What tells a row apart from the others of its table.
fn key<'r>(table: &BoundTable, record: &'r Record) -> (&'r Option<Value>, u8) {
    (&record.values[table.key], record.issues[table.key])
}

/// The expressions, in the order in which [`record`] reads them, and the table.
fn select(database: &dyn Database, table: &BoundTable) -> String {
    let parts = table.columns.iter().flat_map(parts);
    let parts = parts.map(expression);
    let shown = table.shown.iter().map(|column| database.shown(column));
    let expressions: Vec<String> = parts.chain(shown).collect();
    format!("SELECT {} FROM {} AS t", expressions.join(", "), table.name)
}

/// A column's parts, and behind them its issue.
fn parts(column: &BoundColumn) -> impl Iterator<Item = &Part> {
    column.parts.iter().chain(&column.issue)
}

/// A part as SQL names it.
pub(crate) fn expression(part: &Part) -> String {
    format!("t.{}", quoted(&part.column.name))
}

/// What a condition asks for.
enum Terms {
    /// That these are so, with these parameters.
    Of(Vec<String>, Vec<Value>),
    /// What no row has.
    Never,
    /// A value of another type than the column's. No answer is right then, since whoever asks means something else.
    Senseless,
}

/// That a column has a value. An issue of NULL is asked for too, since it is none.
fn equal(
    database: &dyn Database,
    binding: &Binding,
    place: Place,
    value: &Value,
    issue: u8,
) -> Terms {
    let column = &binding.tables[place.table].columns[place.column];
    let mut values = match value {
        Value::Tuple(parts) => parts.clone(),
        single => vec![single.clone()],
    };
    let is_tuple = matches!(value, Value::Tuple(_));
    if is_tuple != column.is_tuple || !are_of_kind(database, column, &values) {
        return Terms::Senseless;
    }
    let numbered = column.parts.iter().zip(1..);
    let equal = numbered.map(|(part, number)| {
        let parameter = database.parameter(&part.column, number);
        format!("{} = {parameter}", expression(part))
    });
    let mut terms: Vec<String> = equal.collect();
    match &column.issue {
        Some(part) => {
            values.push(Value::Number(issue.into()));
            terms.push(issue_term(database, part, values.len()));
        }
        None if issue != 0 => return Terms::Never,
        None => {}
    }
    Terms::Of(terms, values)
}

/// Whether values are such as a column's parts can have.
fn are_of_kind(database: &dyn Database, column: &BoundColumn, values: &[Value]) -> bool {
    let fits = |(part, value): (&Part, &Value)| match value {
        Value::Number(_) => part.kind.is_number(),
        Value::Boolean(_) => part.kind == Kind::Of(Single::Boolean),
        Value::Text(text) => part.kind.is_text() && database.may_have(part.kind, text),
        Value::Tuple(_) => false,
    };
    values.len() == column.parts.len() && column.parts.iter().zip(values).all(fits)
}

fn issue_term(database: &dyn Database, part: &Part, number: usize) -> String {
    let (issue, parameter) = (expression(part), database.parameter(&part.column, number));
    format!("({issue} = {parameter} OR {issue} IS NULL)")
}

/// That a column has a number of a range, at issue 0.
fn between(database: &dyn Database, binding: &Binding, place: Place, low: u32, high: u32) -> Terms {
    let column = &binding.tables[place.table].columns[place.column];
    let [part] = &column.parts[..] else {
        return Terms::Senseless;
    };
    if part.kind != Kind::Of(Single::Integer) {
        return Terms::Senseless;
    }
    let mut values = vec![Value::Number(low.into()), Value::Number(high.into())];
    let (first, second) = (
        database.parameter(&part.column, 1),
        database.parameter(&part.column, 2),
    );
    let mut terms = vec![format!("{} BETWEEN {first} AND {second}", expression(part))];
    if let Some(part) = &column.issue {
        values.push(Value::Number(0));
        terms.push(issue_term(database, part, 3));
    }
    Terms::Of(terms, values)
}

/// A row as the database gives it to one of the design. What no column can have is named with its row.
fn record(
    database: &dyn Database,
    design: &Design,
    binding: &Binding,
    number: usize,
    cells: Vec<Cell>,
) -> Result<Record, Failure> {
    let table = &binding.tables[number];
    let mut rest = cells.into_iter();
    let mut groups = Vec::new();
    for column in &table.columns {
        let group: Vec<Cell> = rest.by_ref().take(parts(column).count()).collect();
        groups.push(group);
    }
    let shown = rest.map(shown).collect();
    let mut values = Vec::new();
    let mut issues = Vec::new();
    for (index, (column, group)) in table.columns.iter().zip(&groups).enumerate() {
        let read = value(database, column, group);
        let (value, issue) = read.map_err(|wrong| {
            let place = Place {
                table: number,
                column: index,
            };
            unfit(design, place, &key_text(&groups[table.key]), &wrong)
        })?;
        values.push(value);
        issues.push(issue);
    }
    if values[table.key].is_none() {
        let name = &design.tables[number].name;
        return Err(Failure::Unfit(format!(
            "a row of `{name}` has NULL in its key (E032)"
        )));
    }
    Ok(Record {
        table: number,
        values,
        issues,
        shown,
    })
}

fn shown(cell: Cell) -> Option<String> {
    match cell {
        Cell::Null => None,
        Cell::Number(number) => Some(number.to_string()),
        Cell::Text(text) | Cell::Other(text) => Some(text),
    }
}

/// A cell as a message shows it.
pub(crate) fn cell_text(cell: &Cell) -> String {
    match cell {
        Cell::Null => "NULL".into(),
        Cell::Number(number) => number.to_string(),
        Cell::Text(text) => format!("{text:?}"),
        Cell::Other(text) => text.clone(),
    }
}

/// A key as a message shows it, whether its values fit or not.
fn key_text(cells: &[Cell]) -> String {
    let texts: Vec<String> = cells
        .iter()
        .map(|cell| match cell {
            Cell::Text(text) => text.clone(),
            other => cell_text(other),
        })
        .collect();
    texts.join("|")
}

fn unfit(design: &Design, place: Place, key: &str, wrong: &str) -> Failure {
    let table = design::name(&design.tables[place.table].name);
    let column = design.column_name(place);
    Failure::Unfit(format!("{table} {key}: {column} {wrong}"))
}

/// A column's value and issue. NULL, and a tuple with a NULL, is blank and has no issue.
pub(crate) fn value(
    database: &dyn Database,
    column: &BoundColumn,
    cells: &[Cell],
) -> Result<(Option<Value>, u8), String> {
    let mut values = Vec::new();
    for (part, cell) in column.parts.iter().zip(cells) {
        values.push(part_value(database, part, cell)?);
    }
    let values: Option<Vec<Value>> = values.into_iter().collect();
    let Some(mut values) = values else {
        return Ok((None, 0));
    };
    let issue = match (&column.issue, cells.get(column.parts.len())) {
        (Some(part), Some(cell)) => issue(database, part, cell)?,
        _ => 0,
    };
    let value = match column.is_tuple {
        true => Some(Value::Tuple(values)),
        false => values.pop(),
    };
    Ok((value, issue))
}

fn part_value(database: &dyn Database, part: &Part, cell: &Cell) -> Result<Option<Value>, String> {
    if *cell == Cell::Null {
        return Ok(None);
    }
    let value = part.kind.value(cell);
    let value = value.and_then(|value| match &value {
        Value::Text(text) if !database.has_form(part.kind, text) => {
            Err(format!("that is no {}", part.kind))
        }
        _ => Ok(value),
    });
    value
        .map(Some)
        .map_err(|why| format!("is {}, and {why} (E031)", cell_text(cell)))
}

fn issue(database: &dyn Database, part: &Part, cell: &Cell) -> Result<u8, String> {
    let wrong = |why: String| {
        let name = design::name(&part.column.name);
        format!(
            "has the issue {} in {name}, and {why} (E031)",
            cell_text(cell)
        )
    };
    if *cell == Cell::Null {
        return Err(wrong(
            "a number that isn't NULL has an issue from 0 to 255".into(),
        ));
    }
    match part_value(database, part, cell) {
        Ok(Some(Value::Number(number))) => {
            u8::try_from(number).map_err(|_| wrong("an issue is 0 to 255".into()))
        }
        _ => Err(wrong("an issue is a number from 0 to 255".into())),
    }
}

/// Whether a row that the database gives for a value has that value. If not, the database calls different values equal.
fn meets(design: &Design, record: &Record, condition: &Condition) -> Result<(), Failure> {
    let Condition::Value {
        column,
        value,
        issue,
    } = condition
    else {
        return Ok(());
    };
    let found = record.values[column.column].as_ref();
    if found == Some(value) && record.issues[column.column] == *issue {
        return Ok(());
    }
    let name = design.column_name(*column);
    let found = found.map(Value::to_string).unwrap_or_default();
    Err(Failure::Unfit(format!(
        "the database calls {found:?} and \"{value}\" equal in {name}, and they are not the same (E073)"
    )))
}

/// The lowest values of a column, each once, rising.
pub(crate) fn values(
    database: &mut dyn Database,
    design: &Design,
    binding: &Binding,
    place: Place,
    most: usize,
) -> Result<Vec<(Value, u8)>, Failure> {
    let table = &binding.tables[place.table];
    let column = &table.columns[place.column];
    let names: Vec<String> = parts(column).map(expression).collect();
    let filled: Vec<String> = column.parts.iter().map(not_null).collect();
    let order: Vec<String> = parts(column)
        .map(|part| database.order(&part.column))
        .collect();
    let sql = format!(
        "SELECT {names} FROM {} AS t WHERE {} GROUP BY {names} ORDER BY {} LIMIT {most}",
        table.name,
        filled.join(" AND "),
        order.join(", "),
        names = names.join(", "),
    );
    let rows = database.rows(&sql, &[])?;
    let mut found = Vec::new();
    for cells in rows {
        let read = value(database, column, &cells);
        let unfit =
            |wrong: String| Failure::Unfit(format!("{} {wrong}", design.column_name(place)));
        if let (Some(value), issue) = read.map_err(unfit)? {
            found.push((value, issue));
        }
    }
    found.sort();
    Ok(found)
}

/// That a part isn't NULL.
pub(crate) fn not_null(part: &Part) -> String {
    format!("{} IS NOT NULL", expression(part))
}

/// The value that texts mean in a column.
pub(crate) fn meant(
    database: &mut dyn Database,
    design: &Design,
    binding: &Binding,
    place: Place,
    texts: &[&str],
) -> Result<Value, Failure> {
    let column = &binding.tables[place.table].columns[place.column];
    let name = design.column_name(place);
    if texts.len() != column.parts.len() {
        let (wanted, given) = (column.parts.len(), texts.len());
        let message = match wanted {
            1 => format!("{name} is one value, and these are {given}"),
            _ => format!("{name} has {wanted} parts, joined by `|`, and here is {given}"),
        };
        return Err(Failure::Unfit(message));
    }
    let mut values = Vec::new();
    for (part, text) in column.parts.iter().zip(texts) {
        let unfit =
            |why: String| Failure::Unfit(format!("{text:?} isn't a value of {name}: {why}"));
        values.push(match part.kind.is_text() {
            true => {
                let canonical = database.canonical(&part.column, part.kind, text)?;
                let none = || unfit(format!("that is no {}", part.kind));
                Value::Text(canonical.ok_or_else(none)?)
            }
            false => part.kind.read(text).map_err(unfit)?,
        });
    }
    Ok(match (column.is_tuple, values.pop()) {
        (false, Some(value)) => value,
        (_, last) => Value::Tuple(values.into_iter().chain(last).collect()),
    })
}
