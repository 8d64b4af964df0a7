//! A random session beside the whole database: at each point what the session says is what SQL says.

use std::collections::BTreeSet;

use compare::random::Random;
use design::{Cells, Place};
use session::{
    Cause, Dropped, Issued, Probed, Referred, Session, TooLarge, Trouble, Wanted, MOST_ROWS,
};
use source::Source;

use crate::changes::Database;
use crate::oracle::{Holding, Key, Oracle, What};
use crate::tally::Tally;
use crate::values::{integer, value, Kind, Val};
use crate::world::{any, World};

/// The values that a desk holds at most.
pub const PLACES: usize = 16;

/// A session with what it is compared with.
pub struct Play<'w, 'd> {
    pub world: &'w World,
    pub session: Session<'w>,
    pub oracle: Oracle<'w>,
    pub database: &'d dyn Database,
    pub random: Random,
    pub tally: &'d mut Tally,
    /// Whether the database has changed since the snapshot.
    pub changed: bool,
    pub desk: u8,
}

/// What a comparison finds: nothing, or the difference.
pub type Compared = Result<(), String>;

macro_rules! same {
    ($left:expr, $right:expr, $($what:tt)*) => {
        $crate::play::same_values(&$left, &$right, || format!($($what)*))?
    };
}

pub(crate) use same;

pub fn same_values<T: PartialEq + std::fmt::Debug>(
    left: &T,
    right: &T,
    what: impl Fn() -> String,
) -> Compared {
    match left == right {
        true => Ok(()),
        false => Err(format!("{}: {left:?}, not {right:?}", what())),
    }
}

impl<'w, 'd> Play<'w, 'd> {
    pub fn new(
        world: &'w World,
        source: &'w mut dyn Source,
        oracle: Oracle<'w>,
        database: &'d dyn Database,
        random: Random,
        tally: &'d mut Tally,
    ) -> Play<'w, 'd> {
        let session = Session::open(&world.design, source).expect("a session");
        Play {
            world,
            session,
            oracle,
            database,
            random,
            tally,
            changed: false,
            desk: 0,
        }
    }

    /// One operation and its comparison.
    pub fn step(&mut self) -> Compared {
        if self.changed {
            self.tally.count("asked of an old snapshot", true);
        }
        match self.random.below(100) {
            0..=23 => self.load(),
            24..=29 => self.load_range(),
            30..=39 => self.drop_any(),
            40..=56 => self.probe(),
            57..=78 => self.ask(),
            79..=84 => self.reason(),
            85..=88 => self.opener(),
            89..=90 => self.name_desk(),
            91 => self.fill_places(),
            92..=95 => self.change(),
            _ => self.refresh(),
        }
    }

    pub fn wanted(&mut self, load: usize, what: &What) -> Wanted {
        match what {
            What::Value(value) => self
                .session
                .wanted(load, &value.word())
                .unwrap_or_else(|trouble| panic!("{trouble}")),
            &What::Range(low, high) => Wanted::Range { low, high },
        }
    }

    pub fn read(&mut self, place: Place, value: &Val) -> Issued {
        self.session
            .read(place, &value.word())
            .unwrap_or_else(|trouble| panic!("{trouble}"))
    }

    pub fn any_load(&mut self) -> usize {
        self.random.below(self.world.design.loads.len())
    }

    /// A value that some row may have in a column; of a cached row more often.
    pub fn any_value(&mut self, place: Place) -> Val {
        let column = self.world.column(place);
        if self.random.percent(50) {
            let here: Vec<u16> = self.session.cached().collect();
            let rows = here.iter().filter_map(|&row| self.session.row(row));
            let rows = rows.filter(|row| row.identity.table == place.table);
            let values = rows.filter_map(|row| {
                let value = row.record.values[place.column].as_ref()?;
                Some(Val::of(
                    value,
                    column.issue().map(|_| row.record.issues[place.column]),
                ))
            });
            let values: Vec<Val> = values.collect();
            if let Some(value) = self.random.pick_any(&values) {
                return value.clone();
            }
        }
        let found = (0..8).find_map(|_| any(&mut self.random, column));
        found.unwrap_or_else(|| value(column.kind, 0))
    }

    /// What is held with one thing more.
    pub fn held_with(&self, load: usize, what: What) -> Vec<Holding> {
        let mut held = self.oracle.held.clone();
        let mut new = Holding {
            desk: self.desk,
            load,
            what,
        };
        if let What::Range(low, high) = &mut new.what {
            held.retain(|other| match &other.what {
                What::Range(a, b) if other.desk == new.desk && other.load == load => {
                    let meets = u64::from(*a) <= u64::from(*high) + 1
                        && u64::from(*low) <= u64::from(*b) + 1;
                    if meets {
                        (*low, *high) = ((*low).min(*a), (*high).max(*b));
                    }
                    !meets
                }
                _ => true,
            });
        }
        held.push(new);
        held
    }

    pub fn values_of_desk(&self) -> usize {
        let own = self
            .oracle
            .held
            .iter()
            .filter(|held| held.desk == self.desk);
        own.filter(|held| matches!(held.what, What::Value(_)))
            .count()
    }

    pub fn ranges_of(held: &[Holding], desk: u8) -> usize {
        let own = held.iter().filter(|held| held.desk == desk);
        own.filter(|held| matches!(held.what, What::Range(..)))
            .count()
    }

    /// Whether a load has a value among its candidates.
    pub fn is_candidate(&self, load: usize, low: i64, high: i64) -> bool {
        let values = self.world.design.loads[load].values;
        values.is_none_or(|(least, most)| i64::from(least) <= low && high <= i64::from(most))
    }

    pub fn number(value: &Val) -> i64 {
        value.parts[0].sql().parse().unwrap_or(1)
    }

    pub fn load(&mut self) -> Compared {
        let load = self.any_load();
        let value = self.any_value(self.world.design.loads[load].column);
        self.load_what(load, What::Value(value))
    }

    pub fn load_range(&mut self) -> Compared {
        let design = &self.world.design;
        let is_integer =
            |load: &usize| self.world.column(design.loads[*load].column).kind == Kind::Integer;
        let loads: Vec<usize> = (0..design.loads.len()).filter(is_integer).collect();
        let Some(&load) = self.random.pick_any(&loads) else {
            return Ok(());
        };
        let column = self.world.column(design.loads[load].column);
        let low = integer(self.random.below(column.size.max(1))) as u32;
        let high = low.saturating_add(self.random.below(12) as u32);
        self.load_what(load, What::Range(low, high))
    }

    pub fn load_what(&mut self, load: usize, what: What) -> Compared {
        let wanted = self.wanted(load, &what);
        let (low, high) = match &what {
            What::Value(value) => (Self::number(value), Self::number(value)),
            What::Range(low, high) => (i64::from(*low), i64::from(*high)),
        };
        let candidate = self.is_candidate(load, low, high);
        let is_held = self.oracle.held.iter().any(|held| {
            held.desk == self.desk
                && held.load == load
                && match (&held.what, &what) {
                    (What::Value(held), What::Value(value)) => held == value,
                    (What::Range(a, b), What::Range(low, high)) => a <= low && high <= b,
                    _ => false,
                }
        });
        let after = self.held_with(load, what.clone());
        let full = match &what {
            What::Value(_) => self.values_of_desk() == PLACES,
            What::Range(..) => Self::ranges_of(&after, self.desk) > 8,
        };
        let before = self.session.cached().count();
        let answer = self.session.load(load, &wanted);
        let what_is =
            |answer: &Result<Referred, Trouble>| format!("load {load} {what:?}: {answer:?}");
        match &answer {
            Ok(Referred::NoCandidate) => {
                self.tally.count("no candidate", true);
                same!(candidate, false, "{}", what_is(&answer));
            }
            Ok(Referred::Held) => {
                self.tally.count("held", true);
                same!((candidate, is_held), (true, true), "{}", what_is(&answer));
            }
            Err(Trouble::Refused(refusal)) if refusal.cause == Cause::NoPlaceFree => {
                self.tally.count("no place free", true);
                same!(
                    (candidate, is_held, full),
                    (true, false, true),
                    "{}",
                    what_is(&answer)
                );
            }
            Err(Trouble::TooLarge(large)) => {
                self.tally.count("too large", true);
                self.tally
                    .count("too large beside others", !self.oracle.held.is_empty());
                self.too_large(&after, large)?;
            }
            &Ok(Referred::Loaded { rows, rounds }) => {
                same!(
                    (candidate, is_held, full),
                    (true, false, false),
                    "{}",
                    what_is(&answer)
                );
                self.oracle.held = after;
                let added = self.session.cached().count() - before;
                same!(rows, added, "{}", what_is(&answer));
                self.tally.count("loaded", true);
                self.tally.count("loaded without a row", rows == 0);
                self.tally.count("loaded over 100 rows", rows > 100);
                self.tally.count("loaded in over 2 rounds", rounds > 2);
                self.tally
                    .count("range loaded", matches!(what, What::Range(..)));
            }
            _ => return Err(what_is(&answer)),
        }
        self.same_rows()
    }

    /// A desk with all rows would need as many rows as is told, and more than it can have; and it is told what brings all of them.
    pub fn too_large(&mut self, held: &[Holding], large: &TooLarge) -> Compared {
        let brought: usize = large.brought.iter().map(|brought| brought.rows).sum();
        same!(brought, large.rows, "{large:?}");
        self.needs(held, large.rows)
    }

    /// A desk with all rows would need so many, and more than it can have.
    pub fn needs(&mut self, held: &[Holding], rows: usize) -> Compared {
        same!(rows > MOST_ROWS, true, "{rows} rows are too many");
        same!(
            self.oracle.needs(held, rows),
            true,
            "{rows} rows are needed"
        );
        Ok(())
    }

    /// The cached rows are those of a desk with all rows.
    pub fn same_rows(&mut self) -> Compared {
        let count = self.oracle.follow(&self.oracle.held);
        let rows: BTreeSet<Key> = self.session.cached().map(|row| self.key(row)).collect();
        same!(Some(rows.len()), count, "cached rows");
        let here = self.oracle.here();
        if rows != here {
            let more: Vec<&Key> = rows.difference(&here).take(3).collect();
            let less: Vec<&Key> = here.difference(&rows).take(3).collect();
            return Err(format!(
                "rows that aren't the database's: {more:?}; rows that lack: {less:?}"
            ));
        }
        Ok(())
    }

    pub fn key(&self, row: u16) -> Key {
        let row = self.session.row(row).expect("a row");
        (row.identity.table, row.key.clone())
    }

    pub fn drop_any(&mut self) -> Compared {
        let own: Vec<Holding> = self
            .oracle
            .held
            .iter()
            .filter(|held| held.desk == self.desk)
            .cloned()
            .collect();
        let Some(holding) = self.random.pick_any(&own).cloned() else {
            let load = self.any_load();
            let value = self.any_value(self.world.design.loads[load].column);
            let wanted = self.wanted(load, &What::Value(value));
            let dropped = self.session.drop_load(load, &wanted);
            self.tally.count("not held", true);
            let refused = matches!(&dropped, Err(Trouble::Refused(refusal)) if refusal.cause == Cause::NotHeld);
            same!(refused, true, "drop of what isn't held: {dropped:?}");
            return Ok(());
        };
        let before = self.session.cached().count();
        let wanted = self.wanted(holding.load, &holding.what);
        let dropped = self.session.drop_load(holding.load, &wanted);
        let Ok(Dropped { rows }) = dropped else {
            return Err(format!("drop of {holding:?}: {dropped:?}"));
        };
        self.oracle.held.retain(|held| *held != holding);
        let now = self.session.cached().count();
        same!(rows, before - now, "drop of {holding:?}");
        self.tally.count("dropped", true);
        self.tally
            .count("range dropped", matches!(holding.what, What::Range(..)));
        self.tally.count(
            "numbers given back",
            rows > 0 && self.session.rows_read() > self.session.cached().count(),
        );
        self.same_rows()
    }

    /// A column that takes a cell and can be asked for.
    pub fn any_column(&mut self) -> Place {
        let cells = Cells::of(&self.world.design);
        let tables = 0..self.world.tables.len();
        let places = tables.flat_map(|table| {
            let columns = cells.columns(table).iter();
            columns.map(move |&column| Place { table, column })
        });
        let places: Vec<Place> = places
            .filter(|&place| !self.world.column(place).measure)
            .collect();
        *self.random.pick(&places)
    }

    pub fn probe(&mut self) -> Compared {
        let place = self.any_column();
        let value = match self.random.percent(50) {
            true => self.value_at_a_source(place),
            false => self.any_value(place),
        };
        self.probe_value(place, &value)
    }

    /// A value that a cached row has where a link to the column starts.
    pub fn value_at_a_source(&mut self, place: Place) -> Val {
        let links = self.world.design.links.iter();
        let sources: Vec<Place> = links
            .filter(|link| link.target == place)
            .map(|link| link.source)
            .collect();
        let source = self.random.pick_any(&sources).copied();
        self.any_value(source.unwrap_or(place))
    }

    pub fn probe_value(&mut self, place: Place, value: &Val) -> Compared {
        let issued = self.read(place, value);
        let probed = self.session.probe(place, &issued);
        self.oracle.follow(&self.oracle.held);
        let expected = self.oracle.ground(place, value);
        let told = format!(
            "probe of {} = {value:?}",
            self.world.design.column_name(place)
        );
        match probed {
            Ok(Probed::Sent) => {
                same!(None, expected, "{told}");
                self.tally.count("sent", true);
            }
            Ok(Probed::Ground { ground, rows }) => {
                same!(Some(ground.number()), expected, "{told}");
                same!(rows as u64, self.oracle.count(place, value), "{told}: rows");
                self.tally.count("complete without a row", rows == 0);
                self.tally.count(
                    match ground.number() {
                        1 => "complete by ground 1",
                        2 => "complete by ground 2",
                        _ => "complete by ground 3",
                    },
                    true,
                );
            }
            other => return Err(format!("{told}: {other:?}")),
        }
        Ok(())
    }

    pub fn name_desk(&mut self) -> Compared {
        self.desk = self.random.below(4) as u8;
        self.session
            .name_desk(self.desk)
            .map_err(|trouble| trouble.to_string())
    }

    /// Values that nobody has fill the desk's places, so that the next one is refused; then they are dropped again.
    pub fn fill_places(&mut self) -> Compared {
        let kinds = [Kind::Text, Kind::Bigint, Kind::Uuid, Kind::Issued];
        let design = &self.world.design;
        let fits =
            |load: &usize| kinds.contains(&self.world.column(design.loads[*load].column).kind);
        let loads: Vec<usize> = (0..design.loads.len()).filter(fits).collect();
        let Some(&load) = self.random.pick_any(&loads) else {
            return Ok(());
        };
        let kind = self.world.column(design.loads[load].column).kind;
        let before = self.oracle.held.clone();
        for number in 0..=PLACES {
            self.load_what(load, What::Value(value(kind, 9_000_000 + number)))?;
        }
        for held in self
            .oracle
            .held
            .clone()
            .into_iter()
            .filter(|held| !before.contains(held))
        {
            let wanted = self.wanted(held.load, &held.what);
            self.session
                .drop_load(held.load, &wanted)
                .map_err(|trouble| trouble.to_string())?;
            self.oracle.held.retain(|other| *other != held);
        }
        self.same_rows()
    }
}
