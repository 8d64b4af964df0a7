//! Works that can be made for a number of rows, from 64 to 512, so that their
//! growth can be seen.

use notation::{Command, Design, Put, Query};

use super::{
    column, constraint, drop, filling, join, load_and_drop, opener, probe, query, refer, table,
    total, Work,
};

const MOST_HELD: u32 = 16;

/// The teams of a ring.
const TEAMS: u32 = 64;

/// The works for a number of rows.
pub fn works(rows: usize) -> Vec<Work> {
    vec![
        chain(rows),
        ring(rows),
        ring_beside_a_value(rows),
        many_constraints(rows),
        drops(rows),
        lists(rows),
        total_of_lists(rows),
        total_of_any_five(rows),
        dead_ends(rows),
        crowd(rows),
        crowd_beside_a_value(rows),
        one_bucket(rows),
        uncached(rows),
        a_row_comes_and_goes(rows),
    ]
}

/// Questions that SQL has no statement for, beside the load of as many rows.
pub fn questions(rows: usize) -> Vec<Work> {
    vec![
        chain(rows),
        opener_of_a_chain(rows),
        reason_in_a_chain(rows),
    ]
}

/// Each row demands the next, so that a load takes a round for each row.
pub(crate) fn chain_design(rows: usize) -> Design {
    let mut design = Design {
        tables: vec![table(2, 0b01)],
        constraints: vec![constraint(column(0, 1), column(0, 0))],
        fillings: vec![filling(column(0, 0))],
        rows: Vec::new(),
    };
    for number in 1..=rows as u32 {
        design.add_row(0, &[number, number + 1]);
    }
    design
}

fn chain(rows: usize) -> Work {
    let operations = load_and_drop(0, [1]);
    let design = chain_design(rows);
    Work::repeating("chain: load and drop", design, vec![], &operations)
}

/// Nothing is cached, and every row of the chain leads to its last one: what
/// opens that is the first.
fn opener_of_a_chain(rows: usize) -> Work {
    let operations = [opener(column(0, 0), rows as u32)];
    let design = chain_design(rows);
    Work::repeating(
        "chain: what opens its last row",
        design,
        vec![],
        &operations,
    )
}

/// All rows of the chain are cached, and its last one for the longest reason.
fn reason_in_a_chain(rows: usize) -> Work {
    let operations = [Command::Reason(rows as u16 - 1)];
    let design = chain_design(rows);
    Work::repeating(
        "chain: why its last row is here",
        design,
        vec![refer(0, 1)],
        &operations,
    )
}

/// Staff, each with a supervisor, in a ring that is linked both ways.
fn ring_design(rows: usize) -> Design {
    let [number, supervisor, team] = [0, 1, 2].map(|place| column(0, place));
    let mut design = Design {
        tables: vec![table(3, 0b001)],
        constraints: vec![
            constraint(supervisor, number),
            constraint(number, supervisor),
        ],
        fillings: vec![filling(team)],
        rows: Vec::new(),
    };
    let rows = rows as u32;
    for person in 0..rows {
        design.add_row(
            0,
            &[1 + person, 1 + (person + 1) % rows, 1 + person % TEAMS],
        );
    }
    design
}

/// All rows are loaded and dropped, from one team or another.
fn ring(rows: usize) -> Work {
    let operations = load_and_drop(0, 1..=TEAMS);
    Work::repeating(
        "ring: load and drop",
        ring_design(rows),
        vec![],
        &operations,
    )
}

/// A second team is loaded and dropped while the first keeps all rows.
fn ring_beside_a_value(rows: usize) -> Work {
    let operations = load_and_drop(0, 2..=TEAMS);
    Work::repeating(
        "ring: load and drop beside a held value",
        ring_design(rows),
        vec![refer(0, 1)],
        &operations,
    )
}

/// Eight tables, each linked to two others, with all rows reached from a few.
fn many_constraints(rows: usize) -> Work {
    let mut design = Design {
        tables: vec![table(2, 0); 8],
        fillings: vec![filling(column(0, 0))],
        ..Design::default()
    };
    for table in 0..8 {
        for (key, step) in [(0, 1), (1, 3)] {
            let source = column(table, key);
            let target = column((table + step) % 8, key);
            design.constraints.push(constraint(source, target));
        }
    }
    let in_a_table = rows as u32 / 8;
    let keys = in_a_table / 4;
    for number in 0..in_a_table {
        for table in 0..8 {
            let cells = [number % keys, (number + number / keys) % keys];
            design.add_row(table, &cells.map(|key| key + 1));
        }
    }
    let operations = load_and_drop(0, [1]);
    Work::repeating("16 constraints: load and drop", design, vec![], &operations)
}

/// As many values as can be held, which share rows, loaded and then dropped one
/// by one.
fn drops(rows: usize) -> Work {
    let mut design = Design {
        tables: vec![table(2, 0), table(1, 0)],
        constraints: vec![constraint(column(0, 1), column(1, 0))],
        fillings: vec![filling(column(0, 0))],
        rows: Vec::new(),
    };
    let shared = rows as u32 / 8;
    for number in 0..rows as u32 / 2 {
        design.add_row(0, &[1 + number % MOST_HELD, 1 + number % shared]);
        design.add_row(1, &[1 + number % shared]);
    }
    let loads = (1..=MOST_HELD).map(|value| refer(0, value));
    let drops = (1..=MOST_HELD).map(|value| drop(0, value));
    let operations: Vec<_> = loads.chain(drops).collect();
    Work::repeating("16 values: loads, then drops", design, vec![], &operations)
}

/// Five tables among whose rows a query of four joins has 819 lists of five, the
/// most that 4,096 words can take; and other rows.
fn five_tables(rows: usize) -> (Design, Query) {
    const SIZES: [usize; 5] = [3, 3, 7, 13, 1];
    let mut design = Design {
        tables: vec![table(1, 0); SIZES.len()],
        fillings: vec![filling(column(0, 0))],
        ..Design::default()
    };
    for (table, size) in (0..).zip(SIZES) {
        for _ in 0..size {
            design.add_row(table, &[1]);
        }
    }
    for number in design.rows.len()..rows {
        design.add_row((number % SIZES.len()) as u8, &[2]);
    }
    for table in 1..SIZES.len() as u8 {
        let link = constraint(column(0, 0), column(table, 0));
        design.constraints.push(link);
    }
    let joins = [0, 1, 2, 3].map(|constraint| join(0, constraint));
    (design, Query::new(column(0, 0), 1, &joins))
}

/// The query with the other rows cached too.
fn lists(rows: usize) -> Work {
    let (design, query) = five_tables(rows);
    Work::repeating(
        "819 lists of five: query",
        design,
        vec![refer(0, 1), refer(0, 2)],
        &[Command::Query(query)],
    )
}

/// The total of a cell over the same lists.
fn total_of_lists(rows: usize) -> Work {
    let (design, query) = five_tables(rows);
    Work::repeating(
        "819 lists of five: total",
        design,
        vec![refer(0, 1), refer(0, 2)],
        &[total(query, 3, 0)],
    )
}

/// The total over all lists of any five rows, of which 512 rows have 2^45.
fn total_of_any_five(rows: usize) -> Work {
    let mut design = Design {
        tables: vec![table(1, 0)],
        constraints: vec![constraint(column(0, 0), column(0, 0))],
        fillings: vec![filling(column(0, 0))],
        rows: Vec::new(),
    };
    for _ in 0..rows {
        design.add_row(0, &[1]);
    }
    let joins = [join(0, 0), join(1, 0), join(2, 0), join(3, 0)];
    Work::repeating(
        "lists of any five rows: total",
        design,
        vec![refer(0, 1)],
        &[total(Query::new(column(0, 0), 1, &joins), 0, 0)],
    )
}

/// A query whose positions 0 to 3 take any row each, and whose position 4 takes
/// none.
fn dead_ends(rows: usize) -> Work {
    let mut design = Design {
        tables: vec![table(2, 0)],
        constraints: vec![
            constraint(column(0, 0), column(0, 0)),
            constraint(column(0, 1), column(0, 0)),
        ],
        fillings: vec![filling(column(0, 0))],
        rows: Vec::new(),
    };
    for _ in 0..rows {
        design.add_row(0, &[1, 2]);
    }
    let joins = [join(0, 0), join(1, 0), join(2, 0), join(3, 1)];
    Work::repeating(
        "dead ends: query",
        design,
        vec![refer(0, 1)],
        &[query(column(0, 0), 1, &joins)],
    )
}

/// One table of eight columns, each linked to itself and to the next, so that
/// there are 16 constraints.
pub(super) fn eight_linked_columns() -> Design {
    let mut design = Design {
        tables: vec![table(8, 0)],
        fillings: vec![filling(column(0, 0)), filling(column(0, 1))],
        ..Design::default()
    };
    for source in 0..8 {
        for target in [source, (source + 1) % 8] {
            let link = constraint(column(0, source), column(0, target));
            design.constraints.push(link);
        }
    }
    design
}

/// All rows have the same value in all columns, so that every row demands every
/// row 16 times over.
fn crowd_design(rows: usize) -> Design {
    let mut design = eight_linked_columns();
    for _ in 0..rows {
        design.add_row(0, &[1; 8]);
    }
    design
}

/// All rows are loaded and dropped: 16 constraints of each row are looked at.
fn crowd(rows: usize) -> Work {
    let operations = load_and_drop(0, [1]);
    Work::repeating(
        "crowd: load and drop",
        crowd_design(rows),
        vec![],
        &operations,
    )
}

/// While a value is held that keeps all rows, another one is loaded and dropped.
fn crowd_beside_a_value(rows: usize) -> Work {
    Work::repeating(
        "crowd: load and drop beside a held value",
        crowd_design(rows),
        vec![refer(0, 1)],
        &load_and_drop(1, [1]),
    )
}

/// Every row has a value of its own in all columns, but all values share one
/// bucket of a hash by multiplication, (v * 2654435769 / 2^23) % 512. While a
/// value is held, it is loaded and dropped by a second filling.
fn one_bucket(rows: usize) -> Work {
    let mut design = eight_linked_columns();
    for value in sharing_a_bucket().take(rows) {
        design.add_row(0, &[value; 8]);
    }
    Work::repeating(
        "one bucket: load and drop beside a held value",
        design,
        vec![refer(0, 1)],
        &load_and_drop(1, [1]),
    )
}

/// The values that share a bucket with 1, in rising order.
pub fn sharing_a_bucket() -> impl Iterator<Item = u32> {
    let bucket = |value: u32| u64::from(value) * 2_654_435_769 / 8_388_608 % 512;
    (1..).filter(move |&value| bucket(value) == bucket(1))
}

/// A probe of a column at which 16 constraints end: all rows have the value in
/// their source columns, and none of them is cached.
fn uncached(rows: usize) -> Work {
    let mut design = sixteen_at_a_column();
    for number in 0..rows {
        design.add_row((number % 2) as u8, &[2, 7, 7, 7, 7, 7, 7, 7]);
    }
    Work::repeating(
        "16 constraints at a column: probe, the value in uncached rows",
        design,
        vec![],
        &[probe(column(2, 0), 7)],
    )
}

/// Each row demands the next by all of 16 constraints, every column is unique, and all
/// rows are cached. The last one goes and comes again, and what is left is cached anew.
fn a_row_comes_and_goes(rows: usize) -> Work {
    let design = rows_that_demand_the_next(1..=rows as u32);
    let (number, row) = (rows as u16 - 1, design.rows[rows - 1]);
    Work::repeating(
        "16 constraints: a row goes, a row comes",
        design,
        vec![refer(0, 1)],
        &[Command::Take(number), Command::Put(Put { number, row })],
    )
}

/// A row for each number, in which it stands four times, and the next number four times: the
/// row demands the next one by all of 16 constraints. Every column is unique.
pub(super) fn rows_that_demand_the_next(numbers: impl Iterator<Item = u32>) -> Design {
    let mut design = Design {
        tables: vec![table(8, u8::MAX)],
        fillings: vec![filling(column(0, 0))],
        ..Design::default()
    };
    for source in [1, 3, 5, 7] {
        for target in [0, 2, 4, 6] {
            let link = constraint(column(0, source), column(0, target));
            design.constraints.push(link);
        }
    }
    for number in numbers {
        design.add_row(0, &[[number, number + 1]; 4].concat());
    }
    design
}

/// Two tables of eight columns, all of them linked to one column of a third.
pub(super) fn sixteen_at_a_column() -> Design {
    let mut design = Design {
        tables: vec![table(8, 0); 3],
        fillings: vec![filling(column(0, 0))],
        ..Design::default()
    };
    for source in 0..16 {
        let source = column(source / 8, source % 8);
        design.constraints.push(constraint(source, column(2, 0)));
    }
    design
}
