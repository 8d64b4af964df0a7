//! A session: the desk over a slice of a database, asked by names.

use std::rc::Rc;

use design::{script, Design, Place, Question, Role, Single, Total, Type, Word};
use source::{Condition, Failure, Source};
use wurzsige::{Column, Desk, Dropped, Join, Probed, Query, Range, Referred, Refusal, Totalled};

use crate::answers::{Answered, Lists, Wanted};
use crate::coder::Coder;
use crate::issued::{texts, Issued};
use crate::rows::{Entry, Identity};
use crate::slice::{Feed, Slice};
use crate::trouble::Trouble;

/// A desk over a slice of a database. Each of its operations is carried out whole, with an answer that the whole database would give too, or is in [`Trouble`]
/// and has changed nothing.
pub struct Session<'s> {
    pub(crate) design: &'s Design,
    pub(crate) source: &'s mut dyn Source,
    pub(crate) coder: Coder<'s>,
    pub(crate) slice: Slice,
    /// Why the last refresh failed, if it did.
    pub(crate) stale: Option<Failure>,
}

impl<'s> Session<'s> {
    /// A session in which nothing is held, over a design without mistakes and the database that it was bound to.
    pub fn open(design: &'s Design, source: &'s mut dyn Source) -> Result<Session<'s>, Trouble> {
        if let Some(table) = design.tables.iter().find(|table| !has_key(table)) {
            return Err(Trouble::Wrong(format!(
                "table `{}` has no key, and rows of a database are told apart by their keys",
                table.name
            )));
        }
        Ok(Session {
            design,
            source,
            coder: Coder::new(design),
            slice: empty(design)?,
            stale: None,
        })
    }

    /// The design.
    pub fn design(&self) -> &'s Design {
        self.design
    }

    /// When the snapshot was taken that the answers are of.
    pub fn taken(&self) -> &str {
        self.source.taken()
    }

    /// How many rows the tables of the design have together in the database.
    pub fn size(&mut self) -> Result<u64, Failure> {
        self.source.size()
    }

    /// Lends the database, in its snapshot, for another session beside this one.
    pub fn over<T>(&mut self, with: impl FnOnce(&mut dyn Source) -> T) -> T {
        with(self.source)
    }

    /// How many rows of the database are in the slice, cached or not.
    pub fn rows_read(&self) -> usize {
        self.slice.rows.len()
    }

    /// The value that a word means in a column, as the database writes it.
    pub fn read(&mut self, place: Place, word: &Word) -> Result<Issued, Trouble> {
        let name = || self.design.column_name(place);
        let texts = texts(self.design.column(place), word);
        let (texts, issue) = texts.map_err(|why| Trouble::Wrong(format!("{}: {why}", name())))?;
        let texts: Vec<&str> = texts.iter().map(String::as_str).collect();
        match self.source.meant(place, &texts) {
            Ok(value) => Ok(Issued { value, issue }),
            Err(Failure::Unfit(why)) => Err(Trouble::Wrong(why)),
            Err(failure) => Err(failure.into()),
        }
    }

    /// What a word means for a load: a value, or `LOW..HIGH` where its column is `integer`.
    pub fn wanted(&mut self, load: usize, word: &Word) -> Result<Wanted, Trouble> {
        let column = self.design.loads[load].column;
        let ends = word.text.split_once("..");
        let (Type::Single(Single::Integer), Some((low, high))) =
            (&self.design.column(column).kind, ends)
        else {
            return Ok(Wanted::Value(self.read(column, word)?));
        };
        match (low.parse(), high.parse()) {
            (Ok(low), Ok(high)) => Ok(Wanted::Range { low, high }),
            _ => Err(Trouble::Wrong(format!(
                "`{}` is no range of whole numbers up to 4,294,967,295",
                word.text
            ))),
        }
    }

    /// The lowest values that the database has for a load, at most so many.
    pub fn values(&mut self, load: usize, most: usize) -> Result<Vec<Issued>, Trouble> {
        let column = self.design.loads[load].column;
        let values = self.source.values(column, most)?.into_iter();
        Ok(values
            .map(|(value, issue)| Issued { value, issue })
            .collect())
    }

    /// Whether the database has a row, cached or not.
    pub fn is_there(&mut self, identity: &Identity) -> Result<bool, Trouble> {
        let Issued { value, issue } = identity.key.clone();
        let column = self.key(identity.table);
        let condition = Condition::Value {
            column,
            value,
            issue,
        };
        Ok(!self.source.fetch(&condition)?.is_empty())
    }

    /// The column that is a table's key.
    pub fn key(&self, table: usize) -> Place {
        let mut columns = self.design.tables[table].columns.iter();
        let column = columns.position(|column| column.role == Role::Key);
        let column = column.expect("a session's tables have keys");
        Place { table, column }
    }

    /// Loads a value, or a range of numbers.
    pub fn load(&mut self, load: usize, wanted: &Wanted) -> Result<Referred, Trouble> {
        let holding = self.holding(load, wanted)?;
        self.perform(&|desk| holding.hold(desk))
    }

    /// Drops what was loaded. The numbers of rows that nothing needs any more are for later rows.
    pub fn drop_load(&mut self, load: usize, wanted: &Wanted) -> Result<Dropped, Trouble> {
        match self.holding(load, wanted)? {
            Holding::Value(filling, value) => self.perform(&|desk| desk.drop_value(filling, value)),
            Holding::Range(range) => self.perform(&|desk| desk.release_range(range)),
        }
    }

    /// Drops all that the four desks hold. The snapshot stays, and the desk that is named.
    pub fn clear(&mut self) -> Result<(), Trouble> {
        let desk = self.named_desk();
        self.slice = empty(self.design)?;
        self.name_desk(desk)
    }

    /// Names the desk, from 0 to 3, whose places are used from now on.
    pub fn name_desk(&mut self, desk: u8) -> Result<(), Trouble> {
        Ok(self.slice.desk_mut().name_desk(desk)?)
    }

    /// The desk that is named.
    pub fn named_desk(&self) -> u8 {
        self.slice.desk.named_desk()
    }

    /// Whether a value is known to be complete in a column; then why, and how many rows have it.
    pub fn probe(&mut self, place: Place, value: &Issued) -> Result<Probed, Trouble> {
        self.usable()?;
        let (column, cell) = (self.column(place)?, self.cell(place, value)?);
        Ok(self.slice.desk.probe(column, cell)?)
    }

    /// Asks a question for a value: the rows that it joins, or what a measure of theirs adds up to. A value of a load's column that isn't complete is loaded
    /// first, if there is a place for it.
    pub fn ask(&mut self, question: &Question, value: &Issued) -> Result<Answered, Trouble> {
        self.usable()?;
        let query = Query {
            column: self.column(question.column)?,
            value: self.cell(question.column, value)?,
            joins: question.joins.iter().map(join).collect(),
        };
        if let Some(total) = question.total {
            let (position, column) = self.measure(question, total)?;
            let total = self.perform_query(&query, &|desk| desk.total(&query, position, column))?;
            return Ok(match total {
                Totalled::Total(total) => Answered::Total(total),
                Totalled::Sent => Answered::Sent,
            });
        }
        Ok(
            match self.perform_query(&query, &|desk| desk.query(&query))? {
                wurzsige::Answered::Lists(lists) => {
                    let tables = self.design.positions(question);
                    Answered::Lists(Lists { tables, lists })
                }
                wurzsige::Answered::Sent => Answered::Sent,
            },
        )
    }

    /// The row of the database that has a number of the desk.
    pub fn row(&self, number: u16) -> Option<&Rc<Entry>> {
        self.slice.rows.get(number)
    }

    /// The rows of an answer, one list after another: their keys and labels are lent, and not copied.
    pub fn rows_of<'a>(&'a self, lists: &'a Lists) -> impl ExactSizeIterator<Item = &'a Entry> {
        let rows = &self.slice.rows;
        let row = |&number: &u16| rows.get(number).expect("a row of the slice").as_ref();
        lists.lists.rows().iter().map(row)
    }

    /// The number of a row, if it is cached.
    pub fn number(&self, identity: &Identity) -> Option<u16> {
        let number = self.slice.rows.number(identity)?;
        self.slice.desk.is_cached(number).then_some(number)
    }

    /// The numbers of all cached rows, rising.
    pub fn cached(&self) -> impl Iterator<Item = u16> + Clone + '_ {
        self.slice.desk.cached()
    }

    /// The design with the cached rows, as the bytes of a script, which number them anew without gaps.
    pub fn script(&self) -> Vec<u8> {
        let mut slice = self.slice.clone();
        slice.shrink();
        slice.desk.write()
    }

    /// An operation on the desk: the loop of docs/SLICES.md. If the numbers of rows don't suffice, it is tried once more without the rows that aren't cached.
    pub(crate) fn perform<T>(
        &mut self,
        operation: &dyn Fn(&mut Desk) -> Result<T, Refusal>,
    ) -> Result<T, Trouble> {
        self.usable()?;
        let mut slice = self.slice.clone();
        let mut performed = slice.perform(&mut self.feed(), operation);
        if matches!(performed, Err(Trouble::TooLarge(_))) {
            let read = self.slice.rows.len();
            slice = self.slice.clone();
            slice.shrink();
            if slice.rows.len() < read {
                performed = slice.perform(&mut self.feed(), operation);
            }
        }
        let answer = performed?;
        self.slice = slice;
        Ok(answer?)
    }

    pub(crate) fn feed(&mut self) -> Feed<'_, 's> {
        Feed {
            design: self.design,
            source: self.source,
            coder: &mut self.coder,
        }
    }

    /// A query or total. One that has a ground changes nothing, and neither does one of a column without a load: only what may load needs a copy.
    fn perform_query<T>(
        &mut self,
        query: &Query,
        operation: &dyn Fn(&mut Desk) -> Result<T, Refusal>,
    ) -> Result<T, Trouble> {
        let place = self.coder.place(query.column);
        let mut loads = self.design.loads.iter();
        let loads = loads.any(|load| load.column == place);
        let desk = self.slice.desk_mut();
        if !loads || desk.probe(query.column, query.value)? != Probed::Sent {
            return Ok(operation(desk)?);
        }
        self.perform(operation)
    }

    /// Whether all that is here is of the snapshot that the source has.
    pub fn usable(&self) -> Result<(), Trouble> {
        match &self.stale {
            None => Ok(()),
            Some(failure) => Err(Trouble::Stale(failure.clone())),
        }
    }

    /// The desk's column of one that takes a cell.
    pub(crate) fn column(&self, place: Place) -> Result<Column, Trouble> {
        self.coder.column(place).ok_or_else(|| {
            let name = self.design.column_name(place);
            let line = match self.design.column(place).role {
                Role::Measure => format!("question \"..\" .. total {name}"),
                _ => format!("question \"..\" {name} = ?"),
            };
            Trouble::Wrong(format!(
                "{name} takes no cell, since no link, load, question or total uses it: add a line `{line}` to the design"
            ))
        })
    }

    pub(crate) fn cell(
        &mut self,
        place: Place,
        value: &Issued,
    ) -> Result<wurzsige::Value, Trouble> {
        Ok(self.coder.cell(place, Some(&value.value), value.issue)?)
    }

    pub(crate) fn holding(&mut self, load: usize, wanted: &Wanted) -> Result<Holding, Trouble> {
        let filling = byte(load);
        match wanted {
            Wanted::Value(value) => {
                let column = self.design.loads[load].column;
                Ok(Holding::Value(filling, self.cell(column, value)?))
            }
            &Wanted::Range { low, high } => Ok(Holding::Range(Range { filling, low, high })),
        }
    }

    /// The position and column of what a question adds up.
    fn measure(&self, question: &Question, total: Total) -> Result<(u8, u8), Trouble> {
        let table = self.design.positions(question)[total.position];
        let place = Place {
            table,
            column: total.column,
        };
        Ok((byte(total.position), self.column(place)?.column))
    }
}

/// What is loaded or dropped, in numbers.
pub(crate) enum Holding {
    Value(u8, wurzsige::Value),
    Range(Range),
}

impl Holding {
    pub(crate) fn hold(&self, desk: &mut Desk) -> Result<Referred, Refusal> {
        match *self {
            Holding::Value(filling, value) => desk.refer(filling, value),
            Holding::Range(range) => desk.hold_range(range),
        }
    }
}

fn has_key(table: &design::Table) -> bool {
    table.columns.iter().any(|column| column.role == Role::Key)
}

/// A slice without rows.
pub(crate) fn empty(design: &Design) -> Result<Slice, Refusal> {
    Ok(Slice::new(Desk::open(&script(design))?))
}

fn join(join: &design::Join) -> Join {
    Join {
        position: byte(join.position),
        constraint: byte(join.link),
    }
}

/// A number within the limits that reading a design has checked.
fn byte(number: usize) -> u8 {
    u8::try_from(number).expect("a design has at most 16 of anything")
}
