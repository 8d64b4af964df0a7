//! A draft of a design from a database's catalog: tables with their keys, unique columns and types, what else there is as `show`, and every foreign key as two
//! links that somebody has to choose from.

mod entries;
mod offers;
mod tables;
pub(crate) mod text;
mod types;

use design::{Design, Link, Load, Place, Table, MOST_TABLES};

use crate::database::Database;
use crate::Failure;
use entries::{Entry, Reference};
use types::Typing;

/// What is drafted.
pub(crate) struct Draft {
    /// The tables, and a load by the key of each.
    pub(crate) design: Design,
    /// The tables that a design has no room for.
    pub(crate) rest: Design,
    /// The links that the foreign keys offer, those of one foreign key together.
    pub(crate) offers: Vec<Offer>,
    /// How many foreign keys the database has, and how many of them are of several columns.
    pub(crate) foreign: (usize, usize),
    /// What doesn't fit.
    pub(crate) notes: Vec<String>,
}

/// A link that may be chosen.
pub(crate) struct Offer {
    pub(crate) link: Link,
    /// What it costs, if that was cheap to find out.
    pub(crate) remark: String,
}

/// Drafts a design.
pub(crate) fn draft(database: &mut dyn Database) -> Result<Draft, Failure> {
    database.begin(&[])?;
    let mut notes = Vec::new();
    let entries = entries::entries(database, &mut notes)?;
    // if it is the database that can't be read any more, this can't be either
    database.relations()?;
    let references = entries::references(&entries, &mut notes);
    let (entries, references) = entries::order(entries, references);
    let typing = Typing::of(database, &entries, &references, &mut notes)?;
    let mut drafter = Drafter {
        tables: Vec::new(),
        entries: &entries,
        references: &references,
        typing: &typing,
        notes,
    };
    drafter.tables();
    let offers = drafter.offers(database);
    let several = references.iter().filter(|one| one.columns.len() > 1);
    let foreign = (references.len(), several.count());
    let (tables, notes) = (drafter.tables, drafter.notes);
    let mut design = Design {
        tables,
        ..Design::default()
    };
    let room = design.tables.len().min(MOST_TABLES);
    let rest = Design {
        tables: design.tables.split_off(room),
        ..Design::default()
    };
    design.loads = (0..room).map(|table| by_key(&design, table)).collect();
    Ok(Draft {
        design,
        rest,
        offers,
        foreign,
        notes,
    })
}

/// A load by the key, which stands first in a drafted table.
fn by_key(design: &Design, table: usize) -> Load {
    Load {
        name: design.tables[table].name.clone(),
        column: Place { table, column: 0 },
        values: None,
    }
}

/// What tables and links are drafted from, and the tables as they come.
struct Drafter<'a> {
    tables: Vec<Table>,
    entries: &'a [Entry],
    references: &'a [Reference],
    typing: &'a Typing,
    notes: Vec<String>,
}
