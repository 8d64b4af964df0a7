//! Databases of thousands of rows, and the desk that has all of them: the second
//! implementation, which has no limit on rows but where a script or 0x1D sets one.

use std::collections::BTreeSet;

use compare::random::Random;
use reference::design::{Design, Table};
use reference::desk::Desk;
use reference::script::{Column, Constraint, Filling, Row, Value, BLANK, CELLS};

/// The answer words that both desks are lent.
pub const ANSWER_WORDS: usize = 4_096;

/// From how many numbers those of unique columns are drawn, at least.
const NUMBERS: usize = 4_000;

/// A desk over a whole database.
pub fn whole(random: &mut Random, rows: usize) -> Desk {
    let mut design = match random.below(3) {
        0 => laboratory(),
        _ => any_design(random),
    };
    let spread = spread(random, rows);
    let mut seen = BTreeSet::new();
    while design.rows.len() < rows {
        let row = any_row(random, &design, spread);
        if is_new(&design, &mut seen, &row) {
            design.rows.push(Some(row));
        }
    }
    Desk::new(design, ANSWER_WORDS)
}

/// From how many numbers cells are drawn: so many that a value has few rows, or so few that
/// a load drags in hundreds.
fn spread(random: &mut Random, rows: usize) -> usize {
    rows / *random.pick(&[1, 2, 4, 8, 16, 64, 256])
}

/// Subjects of wards, recordings of subjects, events of recordings, staff of recordings.
fn laboratory() -> Design {
    let column = |table, column| Column { table, column };
    let table = |columns, unique| Table { columns, unique };
    let constraint = |source, target| Constraint { source, target };
    let filling = |column| Filling {
        column,
        low: 1,
        high: u32::MAX,
    };
    Design {
        tables: vec![table(2, 1), table(3, 1), table(2, 0), table(2, 1)],
        constraints: vec![
            constraint(column(0, 0), column(1, 1)),
            constraint(column(1, 0), column(2, 0)),
            constraint(column(1, 2), column(3, 0)),
        ],
        fillings: vec![filling(column(0, 1)), filling(column(1, 0))],
        rows: Vec::new(),
    }
}

fn any_design(random: &mut Random) -> Design {
    let mut design = Design::default();
    for _ in 0..random.within(2..=5) {
        let columns = random.within(1..=3);
        let unique = random.below(1 << columns);
        design.tables.push(Table { columns, unique });
    }
    for _ in 0..random.within(1..=4) {
        let (source, target) = (any_column(random, &design), any_column(random, &design));
        let constraint = Constraint { source, target };
        if !design.constraints.contains(&constraint) {
            design.constraints.push(constraint);
        }
    }
    for _ in 0..random.within(1..=3) {
        let column = any_column(random, &design);
        if design.fillings.iter().all(|f| f.column != column) {
            let (low, high) = (1, u32::MAX);
            design.fillings.push(Filling { column, low, high });
        }
    }
    design
}

/// Any column of a design.
pub fn any_column(random: &mut Random, design: &Design) -> Column {
    let table = random.below(design.tables.len());
    let column = random.below(design.tables[table].columns);
    Column { table, column }
}

/// Any row of a design, with numbers up to `spread`; unique columns have more of them.
pub fn any_row(random: &mut Random, design: &Design, spread: usize) -> Row {
    let table = random.below(design.tables.len());
    let mut cells = [BLANK; CELLS];
    for (place, cell) in cells[..design.tables[table].columns].iter_mut().enumerate() {
        let column = Column {
            table,
            column: place,
        };
        let most = match design.is_unique(column) {
            true => spread.max(NUMBERS),
            false => spread,
        };
        if !random.percent(5) {
            *cell = Value {
                number: random.within(1..=most) as u32,
                issue: u8::from(random.percent(6)),
            };
        }
    }
    Row { table, cells }
}

/// Whether no other row has the row's values in unique columns; then the row is seen.
fn is_new(design: &Design, seen: &mut BTreeSet<(usize, usize, u32, u8)>, row: &Row) -> bool {
    let table = row.table;
    let unique = (0..design.tables[table].columns)
        .filter(|&column| design.is_unique(Column { table, column }) && row.cells[column] != BLANK);
    let key = |column: usize| {
        let Value { number, issue } = row.cells[column];
        (table, column, number, issue)
    };
    let keys: Vec<_> = unique.map(key).collect();
    let new = keys.iter().all(|key| !seen.contains(key));
    if new {
        seen.extend(keys);
    }
    new
}
