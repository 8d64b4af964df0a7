//! The groups of a design's columns and the links between them, worked out for an
//! accepted design, and again when a row comes or goes.

use crate::design::{Column, Constraint, Design, Value, FREE};
use crate::{CELLS, CONSTRAINTS, NO_ROW, ROWS};

/// Where a filling's number could stand: none.
pub const NO_FILLING: u8 = u8::MAX;

/// A constraint or filling by its number, with a column's place.
#[derive(Clone, Copy, Default)]
pub struct Link {
    /// The number.
    pub number: u8,
    /// The place, in its table, of a constraint's target or of the filling
    /// column.
    pub place: u8,
}

/// The links of one table.
#[derive(Clone, Copy, Default)]
pub struct Links {
    count: usize,
    links: [Link; CONSTRAINTS],
}

impl Links {
    fn push(&mut self, number: usize, place: u8) {
        self.links[self.count] = Link {
            number: number as u8,
            place,
        };
        self.count += 1;
    }

    /// The links in order of their numbers.
    #[inline(always)]
    pub fn all(&self) -> &[Link] {
        &self.links[..self.count]
    }
}

/// The groups and links. All zeros have to be cleared before the first use.
pub struct Catalog {
    /// For each cell, the next row of its group.
    pub next: [u16; CELLS * ROWS],
    /// For each cell, the first row of its group.
    pub head: [u16; CELLS * ROWS],
    /// For each row and constraint, the head of the group demanded.
    pub first: [u16; CONSTRAINTS * ROWS],
    /// For each head of a group and constraint that ends at its column, the
    /// head of the group of rows that demand it.
    pub demander: [u16; CONSTRAINTS * ROWS],
    /// For each table, the constraints that leave it.
    pub leaving: [Links; CELLS],
    /// For each table, the constraints that end in it.
    pub entering: [Links; CELLS],
    /// For each table, its fillings.
    pub fillings: [Links; CELLS],
    /// For each column, its filling.
    pub filling: [u8; 64],
    /// For each column, the constraints that end there, bit i for constraint i.
    pub ending: [u16; 64],
    /// The values of all columns, column by column and in rising order.
    values: [Value; CELLS * ROWS],
    /// The head of each value's group.
    heads: [u16; CELLS * ROWS],
    /// The rows of all groups, group by group.
    members: [u16; CELLS * ROWS],
    /// Where each value's group begins among them, and one more for the end.
    member_starts: [u16; CELLS * ROWS + 1],
    member_count: usize,
    /// Where each column's values begin.
    starts: [u16; 65],
}

/// The rows sorted by their tables, and where each table's begin.
struct Order {
    rows: [u16; ROWS],
    starts: [usize; CELLS + 1],
}

impl Order {
    fn of(design: &Design) -> Order {
        let mut starts = [0; CELLS + 1];
        let live = |table: &&u8| **table != FREE;
        for &table in design.row_table[..design.rows].iter().filter(live) {
            starts[usize::from(table) + 1] += 1;
        }
        for table in 0..CELLS {
            starts[table + 1] += starts[table];
        }
        let (mut rows, mut ends) = ([0; ROWS], starts);
        let numbered = (0..).zip(&design.row_table[..design.rows]);
        for (row, &table) in numbered.filter(|(_, table)| live(table)) {
            let end = &mut ends[usize::from(table)];
            rows[*end] = row;
            *end += 1;
        }
        Order { rows, starts }
    }

    fn of_table(&self, table: usize) -> &[u16] {
        &self.rows[self.starts[table]..self.starts[table + 1]]
    }
}

impl Catalog {
    /// Says that there are no groups and links.
    pub fn clear(&mut self) {
        self.member_count = 0;
        self.leaving = Default::default();
        self.entering = Default::default();
        self.fillings = Default::default();
        self.ending.fill(0);
        self.next.fill(NO_ROW);
        self.head.fill(NO_ROW);
        self.first.fill(NO_ROW);
        self.demander.fill(NO_ROW);
        self.filling.fill(NO_FILLING);
    }

    /// The first row that repeats a value of a unique column, if there is one.
    pub fn repeated_row(&mut self, design: &Design) -> Option<usize> {
        self.group(design, design.unique)
    }

    /// Whether a row that isn't in a group yet repeats a value of a unique column.
    pub fn repeats(&self, design: &Design, row: usize) -> bool {
        let table = design.row_table[row];
        (0..design.columns[usize::from(table)]).any(|place| {
            let column = Column { table, place };
            let value = design.value(CELLS * row + usize::from(place));
            design.is_unique(column) && value != 0 && self.find(column, value) < NO_ROW
        })
    }

    /// Fills a cleared catalog; or gives the first row that repeats a value of a
    /// unique column.
    pub fn build(&mut self, design: &Design) -> Option<usize> {
        let mut wanted = design.unique;
        let mut want = |column: Column| wanted[usize::from(column.table)] |= 1 << column.place;
        for filling in &design.filling[..design.fillings] {
            want(filling.column);
        }
        for constraint in &design.constraint[..design.constraints] {
            want(constraint.source);
            want(constraint.target);
        }
        let repeated = self.group(design, wanted);
        if repeated.is_none() {
            self.link(design);
        }
        repeated
    }

    /// Puts the rows of the wanted columns into groups. Gives the first row that
    /// repeats a value of a unique column.
    fn group(&mut self, design: &Design, wanted: [u8; CELLS]) -> Option<usize> {
        let order = Order::of(design);
        let (mut repeated, mut end) = (ROWS, 0);
        for (number, start) in (0..64).zip(0..) {
            let column = Column {
                table: (number / CELLS) as u8,
                place: (number % CELLS) as u8,
            };
            self.starts[start] = end as u16;
            if wanted[number / CELLS] >> column.place & 1 == 1 {
                let rows = order.of_table(number / CELLS);
                let second = self.group_column(design, rows, column, &mut end);
                if design.is_unique(column) {
                    repeated = repeated.min(second);
                }
            }
        }
        self.starts[64] = end as u16;
        (repeated < ROWS).then_some(repeated)
    }

    /// Puts a table's rows into the groups of one of its columns. Gives the
    /// first row that isn't the first of its group.
    fn group_column(
        &mut self,
        design: &Design,
        rows: &[u16],
        column: Column,
        end: &mut usize,
    ) -> usize {
        let place = usize::from(column.place);
        let mut keys = [0u64; ROWS];
        let mut count = 0;
        for &row in rows {
            let value = design.value(CELLS * usize::from(row) + place);
            if value != 0 {
                keys[count] = value << 16 | u64::from(row);
                count += 1;
            }
        }
        keys[..count].sort_unstable();
        let (mut before, mut last, mut second) = (0, 0, ROWS);
        for key in &keys[..count] {
            let (value, row) = (key >> 16, (key & 0xffff) as usize);
            if value == before {
                self.next[CELLS * last + place] = row as u16;
                second = second.min(row);
            } else {
                self.values[*end] = value;
                self.heads[*end] = row as u16;
                self.member_starts[*end] = self.member_count as u16;
                *end += 1;
            }
            self.head[CELLS * row + place] = self.heads[*end - 1];
            self.members[self.member_count] = row as u16;
            self.member_count += 1;
            (before, last) = (value, row);
        }
        self.member_starts[*end] = self.member_count as u16;
        second
    }

    /// Links the groups by the fillings and constraints.
    fn link(&mut self, design: &Design) {
        for (number, filling) in design.filling[..design.fillings].iter().enumerate() {
            let Column { table, place } = filling.column;
            self.filling[filling.column.number()] = number as u8;
            self.fillings[usize::from(table)].push(number, place);
        }
        let constraints = &design.constraint[..design.constraints];
        for (number, &constraint) in constraints.iter().enumerate() {
            let Constraint { source, target } = constraint;
            self.leaving[usize::from(source.table)].push(number, target.place);
            self.entering[usize::from(target.table)].push(number, target.place);
            self.ending[target.number()] |= 1 << number;
            self.link_groups(number, constraint);
        }
    }

    /// Links the groups of a constraint's source column to those of its target
    /// column, both in rising order of their values.
    fn link_groups(&mut self, number: usize, constraint: Constraint) {
        let Constraint { source, target } = constraint;
        let (mut at, end) = self.range(target);
        let (sources, sources_end) = self.range(source);
        for group in sources..sources_end {
            let value = self.values[group];
            while at < end && self.values[at] < value {
                at += 1;
            }
            if at == end {
                return;
            }
            if self.values[at] > value {
                continue;
            }
            let (demanding, demanded) = (self.heads[group], self.heads[at]);
            self.demander[CONSTRAINTS * usize::from(demanded) + number] = demanding;
            let mut row = usize::from(demanding);
            while row < ROWS {
                self.first[CONSTRAINTS * row + number] = demanded;
                row = usize::from(self.next[CELLS * row + usize::from(source.place)]);
            }
        }
    }

    fn range(&self, column: Column) -> (usize, usize) {
        let number = column.number();
        let [start, end] = [self.starts[number], self.starts[number + 1]];
        (usize::from(start), usize::from(end))
    }

    /// The first row of the column that has the value.
    #[inline]
    pub fn find(&self, column: Column, value: Value) -> u16 {
        self.group_of(column, value)
            .map_or(NO_ROW, |group| self.heads[group])
    }

    /// The rows of the column that have the value. They stand side by side: to
    /// look at all of them is quicker than to go from one to the next.
    #[inline]
    pub fn members(&self, column: Column, value: Value) -> &[u16] {
        let Some(group) = self.group_of(column, value) else {
            return &[];
        };
        let [start, end] = [self.member_starts[group], self.member_starts[group + 1]];
        &self.members[usize::from(start)..usize::from(end)]
    }

    /// The first rows of the column's groups whose values have issue 0 and lie between
    /// two, both ends counted.
    pub fn heads_between(
        &self,
        column: Column,
        low: Value,
        high: Value,
    ) -> impl Iterator<Item = u16> + '_ {
        let (start, end) = self.range(column);
        let values = &self.values[start..end];
        let first = start + values.partition_point(|&value| value < low);
        let groups = (first..end).take_while(move |&group| self.values[group] <= high);
        let without_issue = groups.filter(move |&group| self.values[group] & 0xff == 0);
        without_issue.map(move |group| self.heads[group])
    }

    /// The number of the column's group that has the value.
    #[inline]
    fn group_of(&self, column: Column, value: Value) -> Option<usize> {
        let (start, end) = self.range(column);
        let values = &self.values[start..end];
        let place = values.partition_point(|&other| other < value);
        (values.get(place) == Some(&value)).then_some(start + place)
    }
}
