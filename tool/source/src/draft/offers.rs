//! The links of a draft: for each foreign key both ways, with what they cost.

use design::{Column, Link, Place, Type, MOST_TABLES};

use super::entries::Reference;
use super::{Drafter, Offer};
use crate::database::{Cell, Database};

/// The most rows of a table that are counted.
const MOST_COUNTED: u64 = 100_000;

impl Drafter<'_> {
    /// Two links for each foreign key between tables that there is room for.
    pub(super) fn offers(&mut self, database: &mut dyn Database) -> Vec<Offer> {
        let room = self.tables.len().min(MOST_TABLES);
        let counts: Vec<Option<u64>> = (0..room).map(|table| self.count(database, table)).collect();
        let mut offers: Vec<Offer> = Vec::new();
        for reference in self.references {
            let Reference { from, to, .. } = *reference;
            if from >= room || to >= room {
                continue;
            }
            let (here, there) = self.sides(reference);
            let ends = (self.place(from, &here), self.place(to, &there));
            let (true, (Some(source), Some(target))) =
                (self.are_alike(from, &here, to, &there), ends)
            else {
                let name = &self.entries[from].name;
                self.notes.push(format!(
                    "{name} refers to {} by {}: no link is offered, since the columns aren't of one type of a design",
                    self.entries[to].name,
                    here.join(", ")
                ));
                continue;
            };
            if source == target {
                continue;
            }
            let role = role_name(&here, &self.tables[to].name);
            let known = |link: &Link| {
                offers.iter().any(|offer| {
                    offer.link.source == link.source && offer.link.target == link.target
                })
            };
            let pair = [
                self.up(source, target, &role, &counts),
                self.down(target, source, &role, &counts),
            ];
            let fresh: Vec<Offer> = pair
                .into_iter()
                .filter(|offer| !known(&offer.link))
                .collect();
            offers.extend(fresh);
        }
        offers
    }

    /// Whether columns may be linked, one by one.
    fn are_alike(&self, from: usize, here: &[String], to: usize, there: &[String]) -> bool {
        let (left, right) = (&self.entries[from].name, &self.entries[to].name);
        let mut pairs = here.iter().zip(there);
        pairs.all(|(here, there)| self.typing.are_alike((left, here), (right, there)))
    }

    /// The drafted column of some columns of the database.
    fn place(&self, table: usize, parts: &[String]) -> Option<Place> {
        let wanted = |column: &Column| match (&column.kind, parts) {
            (Type::Tuple(names), _) => names == parts,
            (_, [only]) => column.name == *only,
            _ => false,
        };
        let column = self.tables[table].columns.iter().position(wanted)?;
        Some(Place { table, column })
    }

    /// The link by which a row brings the one that it refers to.
    fn up(&self, source: Place, target: Place, role: &str, counts: &[Option<u64>]) -> Offer {
        let rows = match (counts[source.table], counts[target.table]) {
            (Some(from), Some(to)) => format!(": {from} -> {to} rows"),
            _ => String::new(),
        };
        let name = &self.tables[source.table].name;
        Offer {
            link: Link {
                source,
                target,
                words: Some(format!("is the {role} of")),
            },
            remark: format!("{name} brings its {role}{rows}"),
        }
    }

    /// The link by which a row brings all that refer to it.
    fn down(&self, source: Place, target: Place, role: &str, counts: &[Option<u64>]) -> Offer {
        let each = match (counts[target.table], counts[source.table]) {
            (Some(many), Some(few)) if few > 0 && many >= few => {
                format!(": about {} each", (many + few / 2) / few)
            }
            (Some(_), Some(few)) if few > 0 => ": less than one each".into(),
            _ => String::new(),
        };
        let (one, many) = (
            &self.tables[source.table].name,
            &self.tables[target.table].name,
        );
        let words = match one == role {
            true => "belongs to".to_string(),
            false => format!("has as its {role}"),
        };
        let words = Some(words);
        Offer {
            link: Link {
                source,
                target,
                words,
            },
            remark: format!("{one} brings every {many} of it{each}"),
        }
    }

    /// How many rows a table has, if they aren't too many to be counted, and may be read.
    fn count(&self, database: &mut dyn Database, table: usize) -> Option<u64> {
        let name = self.entries[table].relation.name.quoted();
        let sql = format!(
            "SELECT count(*) FROM (SELECT 1 FROM {name} LIMIT {}) AS t",
            MOST_COUNTED + 1
        );
        let rows = database.rows(&sql, &[]).ok()?;
        let Some(Cell::Number(count)) = rows.first().and_then(|row| row.first()) else {
            return None;
        };
        u64::try_from(*count)
            .ok()
            .filter(|count| *count <= MOST_COUNTED)
    }
}

/// What a referred row is to the one that refers to it: by the column's name, or else by the table's. Words are read aloud, and stand in a string.
fn role_name(columns: &[String], table: &str) -> String {
    let short = match columns {
        [only] => ["_id", "_code", "_no"]
            .iter()
            .find_map(|end| only.strip_suffix(end)),
        _ => None,
    };
    let name = short.filter(|short| !short.is_empty()).unwrap_or(table);
    name.replace('_', " ")
}
