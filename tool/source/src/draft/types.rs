//! The types of a draft: one for all columns that foreign keys connect, since each of them may be chosen as a link.

use std::collections::HashMap;

use design::Single;

use super::entries::{unusable, Entry, Reference};
use crate::catalog::{Column, TableName};
use crate::database::{Cell, Database};
use crate::kind::Kind;
use crate::Failure;

/// The types of columns, by table and name, each with how the database compares it.
pub(crate) struct Typing(HashMap<(String, String), Typed>);

/// A type, and how the database compares values of it.
type Typed = (Single, &'static str);

/// A column by the number of its table and its name.
type Member = (usize, String);

impl Typing {
    /// Finds them.
    pub(crate) fn of(
        database: &mut dyn Database,
        entries: &[Entry],
        references: &[Reference],
        notes: &mut Vec<String>,
    ) -> Result<Typing, Failure> {
        let mut kinds = HashMap::new();
        for class in classes(entries, references) {
            let usable = |member: &&Member| match unusable(database, column(entries, member)) {
                None => true,
                Some(why) => {
                    if concerns(entries, references, member) {
                        let (table, column) = (&entries[member.0].name, &member.1);
                        notes.push(format!("{table}.{column} {why}: only shown"));
                    }
                    false
                }
            };
            let usable: Vec<Member> = class.iter().filter(usable).cloned().collect();
            for ((table, column), typed) in kinds_of(database, entries, &usable)? {
                kinds.insert((entries[table].name.to_string(), column), typed);
            }
        }
        Ok(Typing(kinds))
    }

    /// Whether two columns may be linked.
    pub(crate) fn are_alike(&self, left: (&TableName, &str), right: (&TableName, &str)) -> bool {
        let typed = |(table, column): (&TableName, &str)| {
            self.0.get(&(table.to_string(), column.to_string()))
        };
        typed(left).is_some() && typed(left) == typed(right)
    }

    /// The type of a column; none if it can only be shown.
    pub(crate) fn kind(&self, table: &TableName, column: &str) -> Option<Single> {
        let typed = self.0.get(&(table.to_string(), column.to_string()));
        typed.map(|(kind, _)| *kind)
    }
}

fn column<'e>(entries: &'e [Entry], (table, name): &Member) -> &'e Column {
    let columns = &entries[*table].relation.columns;
    let found = columns.iter().find(|column| column.name == *name);
    found.unwrap_or(&columns[0])
}

/// Whether a foreign key or a unique index uses a column, so that it would be more than shown.
fn concerns(entries: &[Entry], references: &[Reference], (table, name): &Member) -> bool {
    let mut ends = references.iter().flat_map(Reference::ends);
    let mut unique = entries[*table].relation.unique.iter();
    ends.any(|(end, columns)| end == *table && columns.contains(name))
        || unique.any(|unique| unique.columns.contains(name))
}

/// All columns, those together that foreign keys connect.
fn classes(entries: &[Entry], references: &[Reference]) -> Vec<Vec<Member>> {
    let mut classes: Vec<Vec<Member>> = Vec::new();
    for (table, entry) in entries.iter().enumerate() {
        let columns = entry.relation.columns.iter();
        classes.extend(columns.map(|column| vec![(table, column.name.clone())]));
    }
    for reference in references {
        for (here, there) in reference.columns.iter().zip(&reference.targets) {
            let of = |member: Member| classes.iter().position(|class| class.contains(&member));
            let left = of((reference.from, here.clone()));
            let right = of((reference.to, there.clone()));
            if let (Some(left), Some(right)) = (left, right) {
                if left != right {
                    let moved = std::mem::take(&mut classes[right]);
                    classes[left].extend(moved);
                }
            }
        }
    }
    classes.retain(|class| !class.is_empty());
    classes
}

/// The types of a class's columns: one that all of them can have, or else for each its own.
fn kinds_of(
    database: &mut dyn Database,
    entries: &[Entry],
    class: &[Member],
) -> Result<Vec<(Member, Typed)>, Failure> {
    let naturals: Vec<Single> = class
        .iter()
        .filter_map(|member| database.natural(column(entries, member)))
        .collect();
    let equalities = |kind: Single| -> Option<Vec<&'static str>> {
        let fits = class
            .iter()
            .map(|member| database.fit(column(entries, member), Kind::Of(kind)).ok());
        fits.map(|fit| fit.map(|fit| fit.equality)).collect()
    };
    let is_one = |equalities: &Vec<&str>| equalities.windows(2).all(|pair| pair[0] == pair[1]);
    let common = naturals
        .iter()
        .find_map(|&kind| equalities(kind).filter(is_one).map(|all| (kind, all)));
    let Some((mut kind, all)) = common else {
        let own = class.iter().filter_map(|member| {
            let kind = database.natural(column(entries, member))?;
            let fit = database.fit(column(entries, member), Kind::Of(kind)).ok()?;
            Some((member.clone(), (kind, fit.equality)))
        });
        return Ok(own.collect());
    };
    if kind == Single::Bigint && is_small(database, entries, class)? {
        kind = Single::Integer;
    }
    let typed = class.iter().cloned().zip(all);
    Ok(typed
        .map(|(member, equality)| (member, (kind, equality)))
        .collect())
}

/// Whether all numbers of a class are from 1 to 4,294,967,295, as far as its indexed columns show, at least one of which there has to be: those that refer to
/// them have no others. A column that is declared large is meant to become so.
fn is_small(
    database: &mut dyn Database,
    entries: &[Entry],
    class: &[Member],
) -> Result<bool, Failure> {
    let large = |member: &Member| {
        let written = column(entries, member).written.to_lowercase();
        written.contains("big") || written.contains("int8")
    };
    if class.iter().any(large) {
        return Ok(false);
    }
    let mut seen = false;
    for (table, name) in class {
        let relation = &entries[*table].relation;
        let leads = |columns: &Vec<String>| columns.first() == Some(name);
        if !relation
            .unique
            .iter()
            .any(|unique| unique.weakness.is_none() && leads(&unique.columns))
        {
            continue;
        }
        let column = crate::catalog::quoted(name);
        let from = relation.name.quoted();
        let sql = format!(
            "SELECT (SELECT min({column}) FROM {from}), (SELECT max({column}) FROM {from})"
        );
        let rows = match database.rows(&sql, &[]) {
            Ok(rows) => rows,
            // what may not be read is not known
            Err(_) => return Ok(false),
        };
        let small = rows.iter().flatten().all(|cell| match cell {
            Cell::Null => true,
            Cell::Number(number) => (1..=i64::from(u32::MAX)).contains(number),
            _ => false,
        });
        if !small {
            return Ok(false);
        }
        seen = true;
    }
    Ok(seen)
}
