//! The tables of a database that a design can have, and the foreign keys between them.

use design::{Code, Single, MOST_TABLES};

use crate::catalog::{Column, Relation, TableName, Unique};
use crate::database::Database;
use crate::kind::Kind;
use crate::Failure;

/// A table of the database that can be one of the design.
pub(crate) struct Entry {
    pub(crate) name: TableName,
    pub(crate) relation: Relation,
    /// The columns of the key.
    pub(crate) key: Vec<String>,
}

/// A foreign key between entries.
pub(crate) struct Reference {
    pub(crate) from: usize,
    pub(crate) columns: Vec<String>,
    pub(crate) to: usize,
    pub(crate) targets: Vec<String>,
}

impl Reference {
    /// Its columns at either end, each with its table.
    pub(crate) fn ends(&self) -> [(usize, &Vec<String>); 2] {
        [(self.from, &self.columns), (self.to, &self.targets)]
    }
}

/// The tables with a key that a design can write.
pub(crate) fn entries(
    database: &mut dyn Database,
    notes: &mut Vec<String>,
) -> Result<Vec<Entry>, Failure> {
    let mut entries = Vec::new();
    let mut views = 0;
    for name in database.relations()? {
        let relation = match database.relation(&name) {
            Ok(Some(relation)) => relation,
            Ok(None) => continue,
            // a view whose table is gone keeps nobody from drafting the others
            Err(why) => {
                notes.push(format!("{name} is left out, since it can't be read: {why}"));
                continue;
            }
        };
        if relation.columns.iter().any(|column| column.derived) {
            views += 1;
            continue;
        }
        match key(database, &name, &relation) {
            Ok(key) => entries.push(Entry {
                name,
                relation,
                key,
            }),
            Err(why) => notes.push(format!("{name} {why}: left out")),
        }
    }
    if views > 0 {
        notes.push(format!(
            "{views} {} left out; a view can be a table of a design too, with a key that you name",
            if views == 1 { "view is" } else { "views are" }
        ));
    }
    Ok(entries)
}

/// The columns of a table's key: of its primary key, or else of another unique index without NULL; or why there is none.
fn key(
    database: &dyn Database,
    name: &TableName,
    relation: &Relation,
) -> Result<Vec<String>, String> {
    if let Some(misfit) = &relation.refused {
        return Err(misfit.message.clone());
    }
    if !is_writable(&name.name) || !name.schema.iter().all(|schema| is_writable(schema)) {
        return Err("has a name that no design can write".into());
    }
    let mut why = "has no key".to_string();
    let mut indexes: Vec<&Unique> = relation.unique.iter().collect();
    indexes.sort_by_key(|unique| !unique.primary);
    for unique in indexes
        .into_iter()
        .filter(|unique| is_key(relation, unique))
    {
        let wrong = unique.columns.iter().find_map(|column| {
            let column = relation.column(column)?;
            unusable(database, column)
                .map(|why| format!("has the key {}, which {why}", column.name))
        });
        match wrong {
            None => return Ok(unique.columns.clone()),
            Some(wrong) => why = wrong,
        }
    }
    Err(why)
}

/// Whether an index tells all rows apart.
fn is_key(relation: &Relation, unique: &Unique) -> bool {
    let filled = |name: &String| relation.column(name).is_some_and(|column| column.filled);
    let full = unique.weakness.is_none() && !unique.columns.is_empty();
    full && (unique.primary || unique.columns.iter().all(filled))
}

/// Why a column can only be shown, if so.
pub(crate) fn unusable(database: &dyn Database, column: &Column) -> Option<String> {
    if !is_writable(&column.name) {
        return Some("has a name that no design can write".into());
    }
    let kind = database.natural(column);
    let misfit = database
        .fit(column, Kind::Of(kind.unwrap_or(Single::Text)))
        .err()?;
    // a type that isn't like any of a design's is just that, and no mistaken text
    Some(match (kind, misfit.code, column.written.as_str()) {
        (None, Code::E072 | Code::E075, "") => "has no type in the database".into(),
        (None, Code::E072 | Code::E075, written) => {
            format!("has the type {written}, which no column of a design has")
        }
        _ => format!("{} ({})", misfit.message, misfit.help),
    })
}

/// Whether a name can stand in a design, in backquotes if need be.
pub(crate) fn is_writable(name: &str) -> bool {
    !name.contains('`') && !name.chars().any(char::is_control)
}

/// The foreign keys between entries.
pub(crate) fn references(entries: &[Entry], notes: &mut Vec<String>) -> Vec<Reference> {
    let mut references = Vec::new();
    for (from, entry) in entries.iter().enumerate() {
        for key in &entry.relation.foreign {
            let to = entries.iter().position(|other| other.name == key.target);
            let known = |to: usize| {
                let columns = &entries[to].relation;
                key.targets
                    .iter()
                    .all(|target| columns.column(target).is_some())
            };
            match to {
                Some(to) if known(to) && key.targets.len() == key.columns.len() => {
                    references.push(Reference {
                        from,
                        columns: key.columns.clone(),
                        to,
                        targets: key.targets.clone(),
                    });
                }
                _ => notes.push(format!(
                    "{}'s foreign key to {} is left out, since that isn't here",
                    entry.name, key.target
                )),
            }
        }
    }
    references
}

/// The entries in the order of their tables: those with the most foreign keys first where there are more than a design has room for, otherwise as they are;
/// with the foreign keys between them.
pub(crate) fn order(
    entries: Vec<Entry>,
    references: Vec<Reference>,
) -> (Vec<Entry>, Vec<Reference>) {
    let touches = |entry: usize| {
        let touching = |one: &&Reference| one.from == entry || one.to == entry;
        references.iter().filter(touching).count()
    };
    let mut numbers: Vec<usize> = (0..entries.len()).collect();
    if entries.len() > MOST_TABLES {
        numbers.sort_by_key(|&entry| std::cmp::Reverse(touches(entry)));
        numbers[..MOST_TABLES].sort_unstable();
    }
    let place = |entry: usize| numbers.iter().position(|&number| number == entry);
    let moved = references.into_iter().filter_map(|reference| {
        Some(Reference {
            from: place(reference.from)?,
            to: place(reference.to)?,
            ..reference
        })
    });
    let references = moved.collect();
    let mut placed: Vec<(Option<usize>, Entry)> = entries
        .into_iter()
        .enumerate()
        .map(|(number, entry)| (place(number), entry))
        .collect();
    placed.sort_by_key(|(place, _)| *place);
    let entries = placed.into_iter().map(|(_, entry)| entry);
    (entries.collect(), references)
}
