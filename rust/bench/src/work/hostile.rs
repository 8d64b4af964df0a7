//! Works that are meant to be slow, and can't be made for fewer rows.

use notation::{Command, Design, Filling, Put};

use super::growing::{
    eight_linked_columns, rows_that_demand_the_next, sharing_a_bucket, sixteen_at_a_column,
};
use super::{
    column, constraint, filling, join, load_and_drop, opener, probe, query, refer, table, Work,
    MOST_ROWS,
};

/// The works.
pub fn works() -> Vec<Work> {
    vec![
        absent_values(),
        bucket_query(),
        absent_probe(),
        refused_answer("4,032 lists of two: query refused by 11", vec![refer(0, 1)]),
        refused_answer(
            "4,032 lists of two: query refused by 11, its load undone",
            vec![],
        ),
    ]
}

/// Works that SQL has no statement for, or none that is alike.
pub fn questions() -> Vec<Work> {
    vec![
        falling_rows(),
        reason_by_the_last_constraint(),
        opener_by_the_last_filling(),
        knot_of_two_rings(),
        even_design(),
    ]
}

/// As "a row goes, a row comes", but values fall while row numbers rise.
fn falling_rows() -> Work {
    let most = MOST_ROWS as u32;
    let design = rows_that_demand_the_next((1..=most).map(|place| most + 1 - place));
    let (number, row) = (0, design.rows[0]);
    Work::repeating(
        "falling values: a row goes, a row comes",
        design,
        vec![refer(0, 1)],
        &[Command::Take(number), Command::Put(Put { number, row })],
    )
}

/// Each row demands the next by the last of 16 constraints, and itself by the others; the last
/// row is here for the longest reason.
fn reason_by_the_last_constraint() -> Work {
    let mut design = Design {
        tables: vec![table(8, 0)],
        fillings: vec![filling(column(0, 0))],
        ..Design::default()
    };
    let own = (2..8).flat_map(|source| (2..8).map(move |target| (source, target)));
    for (source, target) in own.take(15).chain([(1, 0)]) {
        let link = constraint(column(0, source), column(0, target));
        design.constraints.push(link);
    }
    for number in 1..=MOST_ROWS as u32 {
        let cells = [[number, number + 1, number, number], [number; 4]];
        design.add_row(0, cells.as_flattened());
    }
    Work::repeating(
        "16 constraints: why the last row of a chain is here",
        design,
        vec![refer(0, 1)],
        &[Command::Reason(MOST_ROWS as u16 - 1)],
    )
}

/// What opens the last row of a chain by 16 constraints, where only the last of eight fillings
/// has candidates.
fn opener_by_the_last_filling() -> Work {
    let most = MOST_ROWS as u32;
    let mut design = rows_that_demand_the_next(1..=most);
    design.fillings = (0..8).map(|place| filling(column(0, place))).collect();
    for Filling { low, .. } in &mut design.fillings[..7] {
        *low = u32::MAX;
    }
    Work::repeating(
        "16 constraints: what opens the last row of a chain",
        design,
        vec![],
        &[opener(column(0, 0), most)],
    )
}

/// Eight tables in two rings, in which every two constraints that meet are uneven.
fn knot_of_two_rings() -> Work {
    let mut design = Design {
        tables: vec![table(4, 0); 8],
        fillings: vec![filling(column(0, 0))],
        ..Design::default()
    };
    for ring in [0, 2] {
        for from in 0..8 {
            let target = column((from + 1) % 8, ring + 1);
            design
                .constraints
                .push(constraint(column(from, ring), target));
        }
    }
    Work::repeating(
        "two rings: the smallest knot",
        design,
        vec![],
        &[Command::Knot],
    )
}

/// 16 constraints that are even, so that every pair of them is looked at.
fn even_design() -> Work {
    let design = eight_linked_tables();
    Work::repeating(
        "16 constraints: whether they are even",
        design,
        vec![],
        &[Command::Even],
    )
}

/// Eight tables whose first columns are linked, each to the next two.
fn eight_linked_tables() -> Design {
    let mut design = Design {
        tables: vec![table(1, 0); 8],
        fillings: vec![filling(column(0, 0))],
        ..Design::default()
    };
    for from in 0..8 {
        for step in [1, 2] {
            let link = constraint(column(from, 0), column((from + step) % 8, 0));
            design.constraints.push(link);
        }
    }
    design
}

/// 16 constraints demand values that no row has. All values share one bucket of
/// a hash by multiplication, and so does the value that is loaded and dropped
/// while another keeps all rows.
fn absent_values() -> Work {
    let values: Vec<u32> = sharing_a_bucket().take(2 * MOST_ROWS + 2).collect();
    let (everywhere, nowhere) = (values[0], values[2 * MOST_ROWS + 1]);
    let mut design = Design {
        tables: vec![table(8, 0)],
        fillings: vec![filling(column(0, 0)), filling(column(0, 1))],
        ..Design::default()
    };
    for source in 0..4 {
        for target in 4..8 {
            let link = constraint(column(0, source), column(0, target));
            design.constraints.push(link);
        }
    }
    for row in 1..=MOST_ROWS {
        let (source, target) = (values[row], values[MOST_ROWS + row]);
        let cells = [[everywhere, source, source, source], [target; 4]];
        design.add_row(0, cells.as_flattened());
    }
    Work::repeating(
        "one bucket: load and drop of an absent value",
        design,
        vec![refer(0, everywhere)],
        &load_and_drop(1, [nowhere]),
    )
}

/// A query with four joins in a design whose values share one bucket.
fn bucket_query() -> Work {
    let mut design = eight_linked_columns();
    for value in sharing_a_bucket().take(MOST_ROWS) {
        design.add_row(0, &[value; 8]);
    }
    let joins = [join(0, 1), join(1, 3), join(2, 5), join(3, 7)];
    Work::repeating(
        "one bucket: query with 4 joins",
        design,
        vec![refer(0, 1)],
        &[query(column(0, 0), 1, &joins)],
    )
}

/// A probe of a column at which 16 constraints end, for a value that no row has;
/// all rows are cached.
fn absent_probe() -> Work {
    let mut design = sixteen_at_a_column();
    design.fillings.push(filling(column(1, 0)));
    for number in 0..MOST_ROWS {
        design.add_row((number % 2) as u8, &[1, 3, 3, 3, 3, 3, 3, 3]);
    }
    Work::repeating(
        "16 constraints at a column: probe of an absent value",
        design,
        vec![refer(0, 1), refer(1, 1)],
        &[probe(column(2, 0), 7)],
    )
}

/// A query whose 4,032 lists of two are more than can be answered. If its value
/// isn't held before, all rows are loaded for it each time, and go again.
fn refused_answer(name: &'static str, before: Vec<Command>) -> Work {
    let mut design = Design {
        tables: vec![table(1, 0), table(1, 0)],
        constraints: vec![constraint(column(0, 0), column(1, 0))],
        fillings: vec![filling(column(0, 0))],
        rows: Vec::new(),
    };
    for number in 0..MOST_ROWS {
        design.add_row(u8::from(number >= 8), &[1]);
    }
    let query = query(column(0, 0), 1, &[join(0, 0)]);
    Work::repeating(name, design, before, &[query])
}
