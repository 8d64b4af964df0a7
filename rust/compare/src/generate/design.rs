//! Random designs. They keep what the operations need to know of them, so that
//! most operations name something.

use std::ops::RangeInclusive;

use notation::{Column, Constraint, Design, Filling, Table, Value, CELLS};

use crate::random::Random;

/// In how many of a hundred cases a cell is blank.
const BLANK: usize = 12;

/// Once in so many cells, a unique column gets its last value again.
const TWICE: usize = 400;

/// How large a random design is.
pub struct Shape {
    pub tables: RangeInclusive<usize>,
    /// Columns of each table.
    pub columns: RangeInclusive<usize>,
    /// Constraints, as far as there are different ones.
    pub constraints: RangeInclusive<usize>,
    /// Fillings, as far as there are columns.
    pub fillings: RangeInclusive<usize>,
    /// Rows of all tables together.
    pub rows: RangeInclusive<usize>,
    /// Different values in columns that aren't unique. The fewer there are, the
    /// denser are the links.
    pub values: RangeInclusive<usize>,
    /// In how many of a hundred cases a column is unique.
    pub unique: usize,
}

impl Shape {
    /// A few rows and links.
    pub const SPARSE: Shape = Shape {
        tables: 1..=4,
        columns: 1..=3,
        constraints: 0..=6,
        fillings: 0..=3,
        rows: 0..=24,
        values: 2..=9,
        unique: 35,
    };

    /// Nearly every row linked to nearly every other.
    pub const DENSE: Shape = Shape {
        tables: 1..=2,
        columns: 1..=2,
        constraints: 1..=4,
        fillings: 1..=2,
        rows: 5..=40,
        values: 1..=2,
        unique: 5,
    };
}

/// The issues that a number may have, in order.
pub const ISSUES: [u8; 4] = [0, 1, 255, 128];

/// The values that stand in a design's cells.
#[derive(Clone, Copy)]
pub struct Values {
    count: usize,
    /// From 2^32 - 1 downwards instead of from 1 upwards.
    downwards: bool,
    /// How many issues each number has: the values differ in the issue first.
    issues: usize,
}

impl Values {
    /// Values without issues.
    pub fn new(count: usize, downwards: bool) -> Values {
        Values {
            count,
            downwards,
            issues: 1,
        }
    }

    /// Values of which some differ in the issue alone, in a third of the cases.
    pub fn reissued(self, random: &mut Random) -> Values {
        let issues = match random.below(3) {
            0 => random.within(2..=ISSUES.len()),
            _ => 1,
        };
        Values { issues, ..self }
    }

    /// Whether some values have an issue other than 0.
    pub fn have_issues(&self) -> bool {
        self.issues > 1
    }

    /// One of the values.
    pub fn any(&self, random: &mut Random) -> Value {
        self.get(random.below(self.count))
    }

    /// One of the values, or of so many that follow them.
    pub fn any_of_more(&self, random: &mut Random, more: usize) -> Value {
        self.get(random.below(self.count + more))
    }

    /// The value with the given place in the sequence, even past the count.
    pub fn get(&self, place: usize) -> Value {
        let (number, issue) = ((place / self.issues) as u32, place % self.issues);
        let number = if self.downwards {
            u32::MAX - number
        } else {
            1 + number
        };
        Value::new(number, ISSUES[issue])
    }

    /// The value at a place, which then moves on, but for the rare case that a
    /// value comes twice.
    fn next(&self, random: &mut Random, place: &mut usize) -> Value {
        let value = self.get(*place);
        if random.below(TWICE) > 0 {
            *place += random.within(1..=2);
        }
        value
    }

    /// A filling of the column: for all values, for some or for one of them, or
    /// for all there are.
    fn filling(&self, random: &mut Random, column: Column) -> Filling {
        let (one, other) = match random.below(10) {
            0 => (1, u32::MAX),
            1 => (self.any(random).number, self.any(random).number),
            2 => {
                let value = self.any(random).number;
                (value, value)
            }
            _ => (self.get(0).number, self.get(self.count - 1).number),
        };
        Filling {
            column,
            low: one.min(other),
            high: one.max(other),
        }
    }
}

/// A design and the values in its cells. The desk accepts it, unless its shape
/// passes a largest count or a unique column gets a value twice.
pub struct Draft {
    pub design: Design,
    pub values: Values,
}

impl Draft {
    /// A random design of a shape.
    pub fn random(random: &mut Random, shape: &Shape) -> Draft {
        Draft::linked(random, shape, |random, design| {
            add_constraints(random, design, shape);
        })
    }

    /// A random design of a shape, but for the constraints, which are added by
    /// `link`.
    pub fn linked(
        random: &mut Random,
        shape: &Shape,
        link: impl FnOnce(&mut Random, &mut Design),
    ) -> Draft {
        let values = Values::new(random.within(shape.values.clone()), random.percent(20));
        let mut draft = Draft {
            design: Design::default(),
            values: values.reissued(random),
        };
        for _ in 0..random.within(shape.tables.clone()) {
            draft.design.tables.push(table(random, shape));
        }
        link(random, &mut draft.design);
        draft.add_fillings(random, shape);
        draft.add_rows(random, shape);
        draft
    }

    /// A table linked to itself, whose up to 30 rows form a ring that is broken
    /// here and there.
    pub fn chain(random: &mut Random) -> Draft {
        let rows = random.within(1..=30);
        Draft::ring(random, rows, 5)
    }

    /// A table linked to itself, whose rows form a ring. In so many of a hundred
    /// cases a row has no next one, and in as many, any other.
    pub fn ring(random: &mut Random, rows: usize, broken: usize) -> Draft {
        let values = Values::new(rows, random.percent(20)).reissued(random);
        let [key, next] = [0, 1].map(|column| Column { table: 0, column });
        let mut design = Design {
            tables: vec![Table {
                columns: 2,
                unique: 0b01,
            }],
            constraints: vec![Constraint {
                source: next,
                target: key,
            }],
            fillings: vec![values.filling(random, key)],
            rows: Vec::new(),
        };
        for place in 0..values.count {
            let next = match random.below(100) {
                chance if chance < broken => 0.into(),
                chance if chance < 2 * broken => values.any(random),
                _ => values.get((place + 1) % values.count),
            };
            design.add_row(0, &[values.get(place), next]);
        }
        Draft { design, values }
    }

    fn add_fillings(&mut self, random: &mut Random, shape: &Shape) {
        let columns = self.design.columns();
        let fillings = &mut self.design.fillings;
        let count = random.within(shape.fillings.clone()).min(columns.len());
        while fillings.len() < count {
            let column = *random.pick(&columns);
            if !fillings.iter().any(|filling| filling.column == column) {
                fillings.push(self.values.filling(random, column));
            }
        }
    }

    fn add_rows(&mut self, random: &mut Random, shape: &Shape) {
        let mut places = vec![[0; CELLS]; self.design.tables.len()];
        for _ in 0..random.within(shape.rows.clone()) {
            let number = random.below(self.design.tables.len());
            let cells = self.cells(random, number, &mut places[number]);
            self.design.add_row(number as u8, &cells);
        }
    }

    /// A row's cells. Each unique column of the table has a place in the
    /// sequence of values, which moves on with every value it gets.
    fn cells(
        &self,
        random: &mut Random,
        table: usize,
        places: &mut [usize; CELLS],
    ) -> [Value; CELLS] {
        let Table { columns, unique } = self.design.tables[table];
        let mut cells = [0.into(); CELLS];
        for column in 0..usize::from(columns) {
            if random.percent(BLANK) {
                continue;
            }
            cells[column] = if unique >> column & 1 == 1 {
                self.values.next(random, &mut places[column])
            } else {
                self.values.any(random)
            };
        }
        cells
    }
}

fn add_constraints(random: &mut Random, design: &mut Design, shape: &Shape) {
    let columns = design.columns();
    let constraints = &mut design.constraints;
    let different = columns.len() * columns.len();
    let count = random.within(shape.constraints.clone()).min(different);
    while constraints.len() < count {
        let constraint = any_constraint(random, &columns);
        if !constraints.contains(&constraint) {
            constraints.push(constraint);
        }
    }
}

/// A constraint between any of the columns.
pub fn any_constraint(random: &mut Random, columns: &[Column]) -> Constraint {
    Constraint {
        source: *random.pick(columns),
        target: *random.pick(columns),
    }
}

fn table(random: &mut Random, shape: &Shape) -> Table {
    let columns = random.within(shape.columns.clone()) as u8;
    let unique = (0..columns)
        .filter(|_| random.percent(shape.unique))
        .fold(0, |unique, column| unique | 1 << column);
    Table { columns, unique }
}
