//! Databases that change beside a session, and new snapshots.

use design::Place;
use session::Refreshed;

use crate::oracle::is;
use crate::play::{same, Compared, Play};
use crate::values::{value, Val};
use crate::world::any;

impl Play<'_, '_> {
    /// The database changes. Until the next refresh the session is asked of the old snapshot.
    pub fn change(&mut self) -> Compared {
        for _ in 0..self.random.within(1..=6) {
            let statement = self.any_change();
            self.database.run(&statement);
        }
        self.changed = true;
        match self.database.keeps_snapshots() {
            true => Ok(()),
            false => self.refresh(),
        }
    }

    /// A row comes, goes or changes; one that is cached more often.
    pub fn any_change(&mut self) -> String {
        let here: Vec<u16> = self.session.cached().collect();
        let picked = self.random.pick_any(&here).copied();
        let table = self.random.below(self.world.tables.len());
        let row = picked.and_then(|row| self.session.row(row).cloned());
        let Some(row) = row.filter(|_| self.random.percent(70)) else {
            return self.new_row(table);
        };
        let table = &self.world.tables[row.identity.table];
        let key = &table.columns[0];
        let old = Val::of(
            &row.identity.key.value,
            key.issue().map(|_| row.identity.key.issue),
        );
        let condition = is(&table.name, key, &old);
        if self.random.percent(25) {
            return format!("DELETE FROM {} WHERE {condition};", table.name);
        }
        let column = &table.columns[self.random.within(1..=table.columns.len() - 1)];
        let literals = match column.measure {
            true => vec![crate::world::measure(&mut self.random)],
            false => column.literals(any(&mut self.random, column).as_ref()),
        };
        let set: Vec<String> = column
            .all()
            .into_iter()
            .zip(literals)
            .map(|(name, literal)| format!("{name} = {literal}"))
            .collect();
        format!(
            "UPDATE {} SET {} WHERE {condition};",
            table.name,
            set.join(", ")
        )
    }

    /// A row with a key that none has yet, and values that are held or sought more often.
    pub fn new_row(&mut self, number: usize) -> String {
        let table = &self.world.tables[number];
        let mut literals = Vec::new();
        for (column, of) in table.columns.iter().enumerate() {
            let place = Place {
                table: number,
                column,
            };
            literals.extend(match (of.key, of.measure) {
                (true, _) => of.literals(Some(&value(
                    of.kind,
                    5_000_000 + 3 * self.random.below(1_000_000),
                ))),
                (_, true) => vec![crate::world::measure(&mut self.random)],
                _ => {
                    let value = self.value_at_a_source(place);
                    of.literals(Some(&value))
                }
            });
        }
        format!(
            "INSERT INTO {} VALUES ({}) ON CONFLICT DO NOTHING;",
            table.name,
            literals.join(", ")
        )
    }

    pub fn refresh(&mut self) -> Compared {
        let before = self.session.cached().count();
        let refreshed = self.session.refresh();
        self.oracle.refresh();
        match refreshed {
            Ok(Refreshed::Kept {
                came,
                went,
                changed,
            }) => {
                same!(
                    before + came - went,
                    self.session.cached().count(),
                    "rows after a refresh"
                );
                self.tally
                    .count("refreshed with changes", came + went + changed > 0);
                self.tally
                    .count("refreshed without changes", came + went + changed == 0);
            }
            Ok(Refreshed::TooLarge { rows, .. }) => {
                let held = std::mem::take(&mut self.oracle.held);
                self.needs(&held, rows)?;
                self.tally.count("refresh too large", true);
            }
            Err(trouble) => return Err(format!("refresh: {trouble:?}")),
        }
        self.changed = false;
        self.same_rows()
    }
}
