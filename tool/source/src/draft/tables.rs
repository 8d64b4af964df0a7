//! The tables of a draft: keys, unique columns and what foreign keys use, each with its type, and the rest shown.

use std::collections::BTreeSet;

use design::{Column, Role, Single, Table, Type, MOST_CELLS, MOST_TABLES};

use super::entries::{is_writable, Entry, Reference};
use super::Drafter;
use crate::catalog::{TableName, Unique};

impl Drafter<'_> {
    /// Drafts the tables.
    pub(super) fn tables(&mut self) {
        for number in 0..self.entries.len() {
            let table = self.table(number);
            self.tables.push(table);
        }
        let rest = self.entries.iter().skip(MOST_TABLES);
        let names: Vec<String> = rest.map(|entry| entry.name.to_string()).collect();
        if !names.is_empty() {
            self.notes.push(format!(
                "a design has at most {MOST_TABLES} tables: those with the fewest foreign keys stand as comments: {}",
                names.join(", ")
            ));
        }
    }

    /// A name for a table that none has yet.
    fn table_name(&self, entry: &Entry) -> String {
        let name = &entry.name.name;
        let schema = entry
            .name
            .schema
            .iter()
            .map(|schema| format!("{schema}_{name}"));
        let numbered = (2..).map(|number| format!("{name}_{number}"));
        let mut names = std::iter::once(name.clone()).chain(schema).chain(numbered);
        let taken = |name: &String| self.tables.iter().any(|table| table.name == *name);
        names.find(|name| !taken(name)).unwrap_or_default()
    }

    pub(super) fn kind(&self, table: usize, column: &str) -> Option<Single> {
        self.typing.kind(&self.entries[table].name, column)
    }

    /// The columns of foreign keys at either end in a table.
    fn ends(&self, table: usize) -> impl Iterator<Item = &Vec<String>> {
        let ends = self.references.iter().flat_map(Reference::ends);
        ends.filter(move |(end, _)| *end == table)
            .map(|(_, columns)| columns)
    }

    /// The columns that take a line: those of the key, of foreign keys, and of unique indexes; not those that only stand in a tuple.
    fn used(&self, table: usize) -> BTreeSet<String> {
        let entry = &self.entries[table];
        let others = entry.relation.unique.iter();
        let others = others.filter(|unique| unique.columns != entry.key);
        let alone = |columns: &&Vec<String>| columns.len() == 1;
        let ends = self.ends(table).chain([&entry.key]).filter(alone);
        let used = ends.chain(others.map(|unique| &unique.columns));
        used.flatten().cloned().collect()
    }

    fn table(&mut self, number: usize) -> Table {
        let entry = &self.entries[number];
        let used = self.used(number);
        let mut columns = vec![self.key_column(number)];
        let mut show = Vec::new();
        for column in &entry.relation.columns {
            if entry.key == [column.name.clone()] || !is_writable(&column.name) {
                continue;
            }
            let kind = self.kind(number, &column.name);
            match kind.filter(|_| used.contains(&column.name)) {
                Some(kind) => columns.push(Column {
                    name: column.name.clone(),
                    role: self.role(number, &column.name),
                    kind: kind.into(),
                    issue: None,
                }),
                None if kind.is_some() && self.is_part(number, &column.name) => {}
                None => show.push(column.name.clone()),
            }
        }
        self.add_tuples(number, &mut columns);
        self.remark(number, &columns, &show);
        let name = self.table_name(entry);
        let same = entry.name == TableName::plain(&name);
        Table {
            label: label(&name, &entry.key),
            from: (!same).then(|| entry.name.to_string()),
            name,
            columns,
            show,
        }
    }

    /// Whether a column stands in a tuple, of the key or of a foreign key.
    fn is_part(&self, number: usize, column: &str) -> bool {
        let mut tuples = self.ends(number).chain([&self.entries[number].key]);
        tuples.any(|columns| columns.iter().any(|name| name == column))
    }

    fn key_column(&self, number: usize) -> Column {
        let entry = &self.entries[number];
        let (name, kind) = match &entry.key[..] {
            [only] => {
                let kind = self.kind(number, only).unwrap_or(Single::Text);
                (only.clone(), kind.into())
            }
            parts => (
                self.tuple_name(number, parts, &[]),
                Type::Tuple(parts.to_vec()),
            ),
        };
        Column {
            name,
            role: Role::Key,
            kind,
            issue: None,
        }
    }

    /// A name for a tuple that no column of the table has, in the database or among those that are drafted.
    fn tuple_name(&self, number: usize, parts: &[String], drafted: &[Column]) -> String {
        let name = parts.join("_");
        let numbered = (2..).map(|number| format!("{name}_{number}"));
        let mut names = std::iter::once(name.clone()).chain(numbered);
        let own = self.entries[number].relation.columns.iter();
        let own = own.map(|column| &column.name);
        let taken: Vec<&String> = own
            .chain(drafted.iter().map(|column| &column.name))
            .collect();
        let free = |name: &String| !taken.iter().any(|taken| taken.eq_ignore_ascii_case(name));
        names.find(free).unwrap_or_default()
    }

    fn role(&mut self, number: usize, column: &str) -> Role {
        let entry = &self.entries[number];
        let alone = |unique: &&Unique| unique.columns == [column];
        let indexes: Vec<&Unique> = entry.relation.unique.iter().filter(alone).collect();
        if indexes.iter().any(|unique| unique.weakness.is_none()) {
            return Role::Unique;
        }
        for weakness in indexes.iter().filter_map(|unique| unique.weakness.as_ref()) {
            let name = &entry.name;
            self.notes.push(format!(
                "{name}.{column} is unique by an index that {weakness}: left as not unique"
            ));
        }
        Role::Plain
    }

    /// The tuples of foreign keys of several columns, here and at the other end, if all of their parts have a type.
    fn add_tuples(&self, number: usize, columns: &mut Vec<Column>) {
        for reference in self.references.iter().filter(|one| one.columns.len() > 1) {
            let (here, there) = self.sides(reference);
            for (table, parts) in [(reference.from, here), (reference.to, there)] {
                let typed = parts.iter().all(|part| self.kind(table, part).is_some());
                let kind = Type::Tuple(parts.clone());
                let drafted = columns.iter().any(|column| column.kind == kind);
                if table == number && typed && !drafted {
                    columns.push(Column {
                        name: self.tuple_name(number, &parts, columns),
                        role: self.tuple_role(number, &parts),
                        kind,
                        issue: None,
                    });
                }
            }
        }
    }

    fn tuple_role(&self, number: usize, parts: &[String]) -> Role {
        let unique = self.entries[number].relation.unique.iter();
        let mut full = unique.filter(|unique| unique.weakness.is_none());
        let same = |unique: &Unique| {
            let among = |part: &String| unique.columns.contains(part);
            unique.columns.len() == parts.len() && parts.iter().all(among)
        };
        match full.any(same) {
            true => Role::Unique,
            false => Role::Plain,
        }
    }

    /// The columns of a foreign key here and there, in the order of the other table's key where they are its columns.
    pub(super) fn sides(&self, reference: &Reference) -> (Vec<String>, Vec<String>) {
        let key = &self.entries[reference.to].key;
        let mut pairs: Vec<(String, String)> = reference
            .columns
            .iter()
            .cloned()
            .zip(reference.targets.iter().cloned())
            .collect();
        let at = |target: &String| key.iter().position(|part| part == target);
        if key.len() == pairs.len() && pairs.iter().all(|(_, target)| at(target).is_some()) {
            pairs.sort_by_key(|(_, target)| at(target));
        }
        pairs.into_iter().unzip()
    }

    fn remark(&mut self, number: usize, columns: &[Column], show: &[String]) {
        let relation = &self.entries[number].relation;
        let name = &self.entries[number].name;
        let count = relation.columns.len();
        if count > MOST_CELLS && !show.is_empty() {
            self.notes.push(format!(
                "{name} has {count} columns; {} that no key, foreign key or unique index uses {} shown and {} no place",
                show.len(),
                if show.len() == 1 { "is" } else { "are" },
                if show.len() == 1 { "needs" } else { "need" },
            ));
        }
        if columns.len() > MOST_CELLS {
            self.notes.push(format!(
                "{name} has {} columns here: at most {MOST_CELLS} of them can be used by links, loads and questions",
                columns.len()
            ));
        }
    }
}

/// A row's label: its table and key.
fn label(table: &str, key: &[String]) -> Option<String> {
    let plain = |name: &str| !name.contains(['{', '}']);
    let values: Vec<String> = key.iter().map(|part| format!("{{{part}}}")).collect();
    let writable = plain(table) && key.iter().all(|part| plain(part));
    writable.then(|| format!("{table} {}", values.join(" ")))
}
