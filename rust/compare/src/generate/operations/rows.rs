//! Rows to put in and to take out: most come at a free number and are wanted by something
//! that is held, or want something themselves.

use notation::{Column, Command, Probe, Put, Row, Value, CELLS};

use super::Operator;
use crate::random::Random;

/// The highest number of a row.
const LAST_ROW: usize = 511;

impl Operator<'_> {
    /// A row at a free number: mostly the lowest, or the next past all, one past that,
    /// the highest there is, or any.
    pub fn put(&mut self, random: &mut Random) -> Command {
        let next = self.rows.len();
        let number = match random.below(24) {
            0 => LAST_ROW,
            1 => random.below(LAST_ROW + 1),
            2 => next + 1,
            3..=5 => next,
            _ => self.lowest_free(),
        };
        let number = number.min(LAST_ROW);
        let mut row = self.row(random);
        if random.percent(80) {
            row = self.wanted(random, row);
        }
        if self.rows.len() <= number {
            self.rows.resize(number + 1, None);
        }
        self.rows[number].get_or_insert(row);
        Command::Put(Put {
            number: number as u16,
            row,
        })
    }

    fn lowest_free(&self) -> usize {
        let free = self.rows.iter().position(Option::is_none);
        free.unwrap_or(self.rows.len())
    }

    /// Any row, or one that is like another but for a column and, mostly, for unique
    /// columns.
    fn row(&self, random: &mut Random) -> Row {
        let Some(like) = self.live_row(random).filter(|_| random.percent(50)) else {
            let table = random.below(self.design.tables.len()) as u8;
            return self.changed(random, Row::new(table, &[0u32; 0]), |random, _| {
                random.percent(85)
            });
        };
        let columns = self.design.tables[usize::from(like.table)].columns;
        let changed = random.below(columns.into()) as u8;
        self.changed(random, like, |random, column| {
            column.column == changed || self.is_unique(column) && random.percent(80)
        })
    }

    /// The row with a value that a desk has referred, as far as its table has a filling,
    /// and with one of a row that a constraint leads to.
    fn wanted(&self, random: &mut Random, row: Row) -> Row {
        let referred = self.referred_by_any(random);
        let referred = referred.and_then(|pair| self.probe_of(pair));
        let demanding = self.demanding_cell(random, row.table);
        let wanted = [referred, demanding].into_iter().flatten();
        let mut cells = cells_of(&row);
        for Probe { column, value } in wanted.filter(|wanted| wanted.column.table == row.table) {
            cells[usize::from(column.column)] = value;
        }
        Row::new(row.table, &cells)
    }

    /// A cell by which a row of the table demands one that is there.
    fn demanding_cell(&self, random: &mut Random, table: u8) -> Option<Probe> {
        let mut links = self.design.constraints.clone();
        links.retain(|link| link.source.table == table);
        let link = random.pick_any(&links)?;
        let mut rows: Vec<Row> = self.rows.iter().flatten().copied().collect();
        rows.retain(|row| row.table == link.target.table);
        let row = random.pick_any(&rows)?;
        Some(Probe {
            column: link.source,
            value: row.cell(usize::from(link.target.column)),
        })
    }

    /// The row with other cells in the columns that pass a test.
    fn changed(
        &self,
        random: &mut Random,
        row: Row,
        test: impl Fn(&mut Random, Column) -> bool,
    ) -> Row {
        let table = row.table;
        let mut cells = cells_of(&row);
        for column in 0..self.design.tables[usize::from(table)].columns {
            let column = Column { table, column };
            if test(random, column) {
                cells[usize::from(column.column)] = self.cell(random, column);
            }
        }
        Row::new(table, &cells)
    }

    /// A value for a column. A unique one takes more than the design's.
    fn cell(&self, random: &mut Random, column: Column) -> Value {
        let more = if self.is_unique(column) {
            self.rows.len()
        } else {
            0
        };
        self.values.any_of_more(random, more)
    }

    /// A row that is there.
    pub(super) fn live_row(&self, random: &mut Random) -> Option<Row> {
        let live: Vec<Row> = self.rows.iter().flatten().copied().collect();
        random.pick_any(&live).copied()
    }

    /// The number of a row that is there, or any up to the next.
    pub(super) fn number(&self, random: &mut Random) -> usize {
        let numbers = 0..self.rows.len();
        let live: Vec<usize> = numbers.filter(|&n| self.rows[n].is_some()).collect();
        match random.pick_any(&live) {
            Some(&number) if random.percent(80) => number,
            _ => random.below(self.rows.len() + 1),
        }
    }

    /// Takes out a row, or one that isn't there.
    pub fn take(&mut self, random: &mut Random) -> Command {
        let number = self.number(random);
        if let Some(row) = self.rows.get_mut(number) {
            *row = None;
        }
        Command::Take(number as u16)
    }
}

fn cells_of(row: &Row) -> [Value; CELLS] {
    std::array::from_fn(|place| row.cell(place))
}
