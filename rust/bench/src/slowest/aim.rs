//! Candidates that may be slow: those of the benchmark's works, and random ones
//! with as many rows, constraints, joins and held values as there can be, whose
//! values are all the same, all different, in chains, rings, or in one bucket of
//! a hash.

use std::sync::LazyLock;

use compare::random::Random;
use notation::{
    Column, Command, Constraint, Design, Filling, Join, Pair, Probe, Put, Query, Range,
};
use notation::{Table, Total, Value, CELLS, PAIRS};

use super::candidate::{Candidate, Kind};
use crate::work::{self, growing::sharing_a_bucket, MOST_ROWS};

const MOST_CONSTRAINTS: usize = 16;
const MOST_FILLINGS: usize = 8;
const MOST_HELD: usize = 16;

/// The most operations that are repeated together.
const MOST_REPEATED: usize = 128;

/// In how many of a hundred cases an operand is wrong.
const WRONG: usize = 3;

/// Values of one bucket, one more than there can be rows.
static ONE_BUCKET: LazyLock<Vec<u32>> =
    LazyLock::new(|| sharing_a_bucket().take(MOST_ROWS + 1).collect());

/// The works' designs with those of their operations that the kind allows.
pub fn works(kind: Kind) -> Vec<Candidate> {
    let candidate = |work: work::Work| {
        let allowed = work.timed.iter().filter(|command| kind.allows(command));
        Candidate {
            repeated: allowed.copied().take(MOST_REPEATED).collect(),
            design: work.design,
            before: work.before,
        }
    };
    let works = work::all().into_iter().chain(work::questions());
    let candidates = works.map(candidate);
    candidates.filter(|c| !c.repeated.is_empty()).collect()
}

/// A random candidate.
pub fn random(random: &mut Random, kind: Kind) -> Candidate {
    let design = design(random);
    Candidate {
        before: before(random, &design),
        repeated: repeated(random, kind, &design),
        design,
    }
}

/// A random design with as many rows and constraints as there can be.
fn design(random: &mut Random) -> Design {
    let columns = *random.pick(&[1, 2, 3, 8, 8]);
    let tables = *random.pick(&[1, 1, 2, 3, 5, 8]);
    let mut design = Design {
        tables: vec![Table { columns, unique: 0 }; tables],
        ..Design::default()
    };
    for _ in 0..*random.pick(&[1, 2, 4, 16, 16]) {
        add_constraint(random, &mut design);
    }
    for _ in 0..random.within(1..=3) {
        add_filling(random, &mut design);
    }
    for row in 0..MOST_ROWS {
        design.add_row::<u32>((row % tables) as u8, &[]);
    }
    let pattern = random.below(PATTERNS);
    for column in design.columns() {
        let other = random.below(PATTERNS);
        let pattern = if random.percent(70) { pattern } else { other };
        fill(random, &mut design, column, pattern);
    }
    design
}

/// Adds a constraint that isn't there, if there is room.
pub fn add_constraint(random: &mut Random, design: &mut Design) {
    let columns = design.columns();
    let constraint = Constraint {
        source: *random.pick(&columns),
        target: *random.pick(&columns),
    };
    let room = design.constraints.len() < MOST_CONSTRAINTS;
    if room && !design.constraints.contains(&constraint) {
        design.constraints.push(constraint);
    }
}

/// Adds a filling of a column that has none, if there is room.
pub fn add_filling(random: &mut Random, design: &mut Design) {
    let column = *random.pick(&design.columns());
    let mut fillings = design.fillings.iter();
    if design.fillings.len() < MOST_FILLINGS && !fillings.any(|f| f.column == column) {
        design.fillings.push(Filling {
            column,
            low: 1,
            high: u32::MAX,
        });
    }
}

/// How many patterns there are.
pub const PATTERNS: usize = 11;

/// Gives the cells of a column values in a pattern. Every place of the table
/// takes part, by its number among the table's rows.
pub fn fill(random: &mut Random, design: &mut Design, column: Column, pattern: usize) {
    let groups = *random.pick(&[2, 4, 16, 22, 64, 256]);
    let rows = design.rows.iter_mut();
    let of_table = rows.filter(|row| row.table == column.table);
    let count = MOST_ROWS as u32;
    for (place, row) in (0..count).zip(of_table) {
        row.cells[usize::from(column.column)] = match pattern {
            0 | 1 => 1,
            2 => 1 + place,
            3 => 2 + place,
            4 => 1 + (place + 1) % count,
            5 => count - place,
            6 => 1 + place * 181 % count,
            7 => ONE_BUCKET[place as usize],
            8 => u32::MAX - place,
            9 => 1 + place % groups,
            _ => 1 + place / groups,
        };
    }
}

/// Loads of none, one, some or as many values as can be held.
pub fn before(random: &mut Random, design: &Design) -> Vec<Command> {
    let count = *random.pick(&[0, 1, 1, 2, 8, MOST_HELD - 1, MOST_HELD]);
    let mut pair = || Command::Refer(self::pair(random, design));
    (0..count).map(|_| pair()).collect()
}

/// Operations of a kind.
pub fn repeated(random: &mut Random, kind: Kind, design: &Design) -> Vec<Command> {
    let count = *random.pick(&[1, 1, 2, 8, 64]);
    let one = |_| operation(random, kind, design);
    (0..count).flat_map(one).collect()
}

/// An operation of a kind, or a load and a drop.
fn operation(random: &mut Random, kind: Kind, design: &Design) -> Vec<Command> {
    let kind = match kind {
        Kind::Mixed => *random.pick(&Kind::ALL),
        kind => kind,
    };
    match kind {
        Kind::Refer => vec![Command::Refer(pair(random, design))],
        Kind::Drop | Kind::Mixed => {
            let pair = pair(random, design);
            vec![Command::Refer(pair), Command::Drop(pair)]
        }
        Kind::Probe => vec![Command::Probe(probe(random, design))],
        Kind::Query => vec![Command::Query(query(random, design))],
        Kind::Total => vec![Command::Total(total(random, design))],
        Kind::Range => {
            let range = range(random, design);
            vec![Command::Hold(range), Command::Release(range)]
        }
        Kind::Opener => vec![Command::Opener(probe(random, design))],
        Kind::Reason => vec![Command::Reason(row_number(random, design))],
        Kind::Even => vec![Command::Even],
        Kind::Knot => vec![Command::Knot],
        Kind::Row => {
            let number = row_number(random, design);
            let row = design.rows[usize::from(number)];
            vec![Command::Take(number), Command::Put(Put { number, row })]
        }
    }
}

/// A row's number, the last one as often as not.
fn row_number(random: &mut Random, design: &Design) -> u16 {
    let last = design.rows.len() - 1;
    let number = if random.percent(50) {
        last
    } else {
        random.below(last + 1)
    };
    number as u16
}

/// A range around a value of a filling, wide or narrow.
fn range(random: &mut Random, design: &Design) -> Range {
    let Pair { filling, value } = pair(random, design);
    let width = *random.pick(&[0, 1, 64, 1_000, u32::MAX / 2]);
    Range {
        filling,
        low: value.number.saturating_sub(width / 2).max(1),
        high: value.number.saturating_add(width),
    }
}

fn pair(random: &mut Random, design: &Design) -> Pair {
    let filling = random.below(design.fillings.len().max(1));
    let column = design.fillings.get(filling).map(|filling| filling.column);
    let wrong = random.percent(WRONG);
    Pair {
        filling: if wrong { u8::MAX } else { filling as u8 },
        value: column.map_or(1.into(), |column| value(random, design, column)),
    }
}

fn probe(random: &mut Random, design: &Design) -> Probe {
    let targets: Vec<Column> = design.constraints.iter().map(|c| c.target).collect();
    let filled: Vec<Column> = design.fillings.iter().map(|f| f.column).collect();
    let mut column = match random.below(10) {
        0..=5 => random.pick_any(&targets).copied(),
        6..=8 => random.pick_any(&filled).copied(),
        _ => None,
    };
    let column = column.get_or_insert_with(|| *random.pick(&design.columns()));
    let value = value(random, design, *column);
    let table = if random.percent(WRONG) {
        u8::MAX
    } else {
        column.table
    };
    Probe {
        column: Column { table, ..*column },
        value,
    }
}

/// A query with as many joins as there can be, or fewer.
fn query(random: &mut Random, design: &Design) -> Query {
    let Probe { column, value } = probe(random, design);
    let mut tables = vec![column.table];
    let mut joins = Vec::new();
    let most = *random.pick(&[0, 1, 2, 3, PAIRS, PAIRS, PAIRS]);
    while joins.len() < most {
        let mut fitting = Vec::new();
        for (position, table) in (0..).zip(&tables) {
            for (constraint, link) in (0..).zip(&design.constraints) {
                if link.source.table == *table {
                    fitting.push(Join {
                        position,
                        constraint,
                    });
                }
            }
        }
        let Some(&join) = random.pick_any(&fitting) else {
            break;
        };
        tables.push(
            design.constraints[usize::from(join.constraint)]
                .target
                .table,
        );
        joins.push(join);
    }
    Query::new(column, value, &joins)
}

/// The total of any cell over a query; its table may not have that column.
fn total(random: &mut Random, design: &Design) -> Total {
    let query = query(random, design);
    let columns = design.tables.iter().map(|table| table.columns);
    Total {
        query,
        position: random.below(usize::from(query.joins) + 1) as u8,
        column: random.below(columns.max().map_or(1, usize::from)) as u8,
    }
}

/// A value of the column, one that shares a bucket, or any.
fn value(random: &mut Random, design: &Design, column: Column) -> Value {
    let row = random.pick_any(&design.rows);
    let place = usize::from(column.column) % CELLS;
    let own = row.map_or(1, |row| row.cells[place]);
    let number = match random.below(20) {
        0 => ONE_BUCKET[MOST_ROWS],
        1 => 1 + random.below(600) as u32,
        2 => u32::MAX,
        _ => own,
    };
    number.into()
}
