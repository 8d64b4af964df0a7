//! How a row is called.

use design::{pieces, Piece, Role, Table, Type};

use crate::{Record, Value};

/// What stands for NULL in a label.
const NULL: &str = "-";

/// A row's label, or its table and key if the table has none.
pub fn label(table: &Table, record: &Record) -> String {
    let Some(label) = &table.label else {
        let is_key = |column: &design::Column| column.role == Role::Key;
        let key = table.columns.iter().position(is_key);
        let key = key.and_then(|key| record.values[key].as_ref());
        let key = key.map_or(NULL.to_string(), Value::to_string);
        return format!("{} {key}", design::name(&table.name));
    };
    let pieces = pieces(label).into_iter().map(|piece| match piece {
        Piece::Text(text) => text,
        Piece::Value(name) => named(table, record, &name).unwrap_or_else(|| NULL.into()),
    });
    pieces.collect()
}

/// The value of a name that a label may have: of a column, of what is shown, or of a tuple's part.
fn named(table: &Table, record: &Record, name: &str) -> Option<String> {
    let columns = || table.columns.iter().zip(&record.values);
    if let Some((_, value)) = columns().find(|(column, _)| column.name == name) {
        return value.as_ref().map(Value::to_string);
    }
    if let Some(index) = table.show.iter().position(|shown| shown == name) {
        return record.shown[index].clone();
    }
    columns().find_map(|(column, value)| match (&column.kind, value) {
        (Type::Tuple(parts), Some(Value::Tuple(values))) => {
            let index = parts.iter().position(|part| part == name)?;
            values.get(index).map(Value::to_string)
        }
        _ => None,
    })
}
