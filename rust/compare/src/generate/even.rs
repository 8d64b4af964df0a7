//! Designs with cycles: even ones, ones that one more constraint may make uneven,
//! ones that are uneven by a long way, and even ones in which a load takes as many
//! rounds as it can.

use notation::{Column, Command, Constraint, Design, Table};

use super::design::{any_constraint, Draft, Shape, Values};
use super::extremes::{every_value, refer};
use super::with_operations;
use crate::random::Random;

/// The largest count of constraints.
const CONSTRAINTS: usize = 16;

/// A design with cycles, which is reported on before other operations. At least
/// half of these designs are even.
pub fn cycles(random: &mut Random) -> Vec<u8> {
    let shape = Shape {
        tables: 1..=8,
        columns: 1..=3,
        rows: 0..=40,
        ..Shape::SPARSE
    };
    let draft = Draft::linked(random, &shape, |random, design| {
        link_evenly(random, design);
        if random.percent(50) {
            link_once_more(random, design);
        }
    });
    let commands = [draft.design.commands(), both_reports()].concat();
    with_operations(random, &draft, commands, 10)
}

/// Adds constraints that leave a design even. The tables stand in any order and
/// fall into groups. Within a group, all constraints start and end at one column
/// of each table; those from one group to another lead forwards.
fn link_evenly(random: &mut Random, design: &mut Design) {
    let mut tables: Vec<usize> = (0..design.tables.len()).collect();
    random.shuffle(&mut tables);
    let mut groups = vec![0; tables.len()];
    for place in 1..groups.len() {
        groups[place] = groups[place - 1] + usize::from(random.percent(50));
    }
    let own: Vec<Column> = tables
        .iter()
        .map(|&table| any_column(random, design, table))
        .collect();
    for _ in 0..random.within(1..=CONSTRAINTS) {
        let one = random.below(tables.len());
        let group: Vec<usize> = (0..tables.len())
            .filter(|&place| groups[place] == groups[one])
            .collect();
        let other = if random.percent(50) {
            *random.pick(&group)
        } else {
            random.below(tables.len())
        };
        let constraint = if groups[one] == groups[other] {
            Constraint {
                source: own[one],
                target: own[other],
            }
        } else {
            Constraint {
                source: any_column(random, design, tables[one.min(other)]),
                target: any_column(random, design, tables[one.max(other)]),
            }
        };
        if !design.constraints.contains(&constraint) {
            design.constraints.push(constraint);
        }
    }
}

/// Puts any constraint at any place, if there is room for one.
fn link_once_more(random: &mut Random, design: &mut Design) {
    let constraint = any_constraint(random, &design.columns());
    let constraints = &mut design.constraints;
    if constraints.len() < CONSTRAINTS && !constraints.contains(&constraint) {
        let place = random.below(constraints.len() + 1);
        constraints.insert(place, constraint);
    }
}

/// A design of two rings, which are uneven together. In some cases a constraint
/// is missing, and then it is even.
pub fn two_rings(random: &mut Random) -> Vec<u8> {
    let fewest = *random.pick(&[3, 8]);
    let shape = Shape {
        tables: fewest..=8,
        columns: 2..=3,
        rows: 0..=20,
        ..Shape::SPARSE
    };
    let draft = Draft::linked(random, &shape, link_two_rings);
    let commands = [draft.design.commands(), both_reports()].concat();
    with_operations(random, &draft, commands, 5)
}

/// Links all tables into two rings that share a table, each at its own column of
/// it. From one into the other there is only the way through all tables.
fn link_two_rings(random: &mut Random, design: &mut Design) {
    let mut tables: Vec<usize> = (0..design.tables.len()).collect();
    random.shuffle(&mut tables);
    let (&shared, others) = tables.split_first().expect("tables");
    let mut columns: Vec<usize> = (0..design.tables[shared].columns.into()).collect();
    random.shuffle(&mut columns);
    let (one, other) = others.split_at(random.within(1..=others.len() - 1));
    for (ring, shared_column) in [one, other].into_iter().zip(columns) {
        let mut places = vec![column(shared, shared_column)];
        places.extend(ring.iter().map(|&table| any_column(random, design, table)));
        places.push(places[0]);
        let links = places.windows(2).map(|pair| Constraint {
            source: pair[0],
            target: pair[1],
        });
        design.constraints.extend(links);
    }
    random.shuffle(&mut design.constraints);
    if random.percent(30) {
        design.constraints.pop();
    }
}

/// Several rings of which each turns at one of its tables, by ending there at
/// another column than it starts from: each is a knot, and among those of one length
/// their order decides. Other constraints stand among them.
pub fn several_rings(random: &mut Random) -> Vec<u8> {
    let shape = Shape {
        tables: 4..=8,
        columns: 2..=3,
        rows: 0..=12,
        ..Shape::SPARSE
    };
    let fewest = random.within(1..=4);
    let draft = Draft::linked(random, &shape, |random, design| {
        for _ in 0..random.within(2..=4) {
            let tables = random.within(fewest..=4);
            link_ring(random, design, tables);
        }
        random.shuffle(&mut design.constraints);
        design.constraints.truncate(CONSTRAINTS);
        if random.percent(40) {
            link_once_more(random, design);
        }
    });
    let commands = [draft.design.commands(), both_reports()].concat();
    with_operations(random, &draft, commands, 3)
}

/// Adds a ring through so many tables, which turns at the first of them in most
/// cases.
fn link_ring(random: &mut Random, design: &mut Design, count: usize) {
    let mut tables: Vec<usize> = (0..design.tables.len()).collect();
    random.shuffle(&mut tables);
    tables.truncate(count);
    let mut places: Vec<Column> = tables.iter().map(|&table| column(table, 0)).collect();
    let turned = usize::from(random.percent(80));
    places.push(column(tables[0], turned));
    let link = |pair: &[Column]| Constraint {
        source: pair[0],
        target: pair[1],
    };
    let mut links: Vec<Constraint> = places.windows(2).map(link).collect();
    if random.percent(60) {
        // The same step to another column makes a second knot of this length.
        let mut other = *random.pick(&links);
        other.target.column = 1;
        links.push(other);
    }
    for constraint in links {
        if !design.constraints.contains(&constraint) {
            design.constraints.push(constraint);
        }
    }
}

fn both_reports() -> Vec<Command> {
    vec![Command::Even, Command::Knot]
}

/// A table of a chain: the column that leads to itself, the one that the table
/// before leads to, and the one that leads to the next.
struct Step {
    own: Column,
    entry: Column,
    exit: Column,
}

/// An even design of T tables in which the first load takes 2T - 1 later rounds.
/// The tables form a chain. The row of a table that the one before demands brings
/// another of the same table, and only that one leads to the next table.
pub fn most_rounds(random: &mut Random) -> Vec<u8> {
    let tables = if random.percent(50) {
        8
    } else {
        random.within(1..=8)
    };
    let values = Values::new(2 * tables + 9, random.percent(20));
    let mut design = Design::default();
    for _ in 0..tables {
        design.tables.push(Table {
            columns: random.within(2..=4) as u8,
            unique: 0,
        });
    }
    let mut numbers: Vec<usize> = (0..tables).collect();
    random.shuffle(&mut numbers);
    let steps: Vec<Step> = numbers
        .iter()
        .map(|&table| step(random, &design, table))
        .collect();
    add_chain(&mut design, &steps, values);
    design.fillings.push(every_value(steps[0].entry));
    // Rows beside the chain, with other values.
    for _ in 0..random.below(10) {
        let cells = [0, 1].map(|_| values.get(2 * tables + 1 + random.below(9)));
        design.add_row(random.below(tables) as u8, &cells);
    }
    random.shuffle(&mut design.constraints);
    random.shuffle(&mut design.rows);
    let draft = Draft { design, values };
    let first = vec![Command::Even, refer(values.get(0))];
    let commands = [draft.design.commands(), first].concat();
    with_operations(random, &draft, commands, 5)
}

fn step(random: &mut Random, design: &Design, table: usize) -> Step {
    let columns = usize::from(design.tables[table].columns);
    let mut places: Vec<usize> = (0..columns).collect();
    random.shuffle(&mut places);
    let [own, entry] = [places[0], places[1]];
    let exit = *random.pick(&places[1..]);
    let [own, entry, exit] = [own, entry, exit].map(|place| column(table, place));
    Step { own, entry, exit }
}

/// Adds a chain's constraints and rows. Table p of the chain is entered with
/// value p and left with value p + 1.
fn add_chain(design: &mut Design, steps: &[Step], values: Values) {
    for (place, here) in steps.iter().enumerate() {
        design.constraints.push(Constraint {
            source: here.own,
            target: here.own,
        });
        if let Some(next) = steps.get(place + 1) {
            design.constraints.push(Constraint {
                source: here.exit,
                target: next.entry,
            });
        }
        let own = values.get(steps.len() + 1 + place);
        for (column, value) in [(here.entry, place), (here.exit, place + 1)] {
            let mut cells = [0.into(); 4];
            cells[usize::from(here.own.column)] = own;
            cells[usize::from(column.column)] = values.get(value);
            design.add_row(here.own.table, &cells);
        }
    }
}

fn any_column(random: &mut Random, design: &Design, table: usize) -> Column {
    let columns = design.tables[table].columns;
    column(table, random.below(columns.into()))
}

fn column(table: usize, column: usize) -> Column {
    Column {
        table: table as u8,
        column: column as u8,
    }
}

#[cfg(test)]
mod tests {
    use super::*;

    fn reports(make: fn(&mut Random) -> Vec<u8>) -> impl Iterator<Item = String> {
        (0..500).map(move |number| reference::report(&make(&mut Random::new(1, number))))
    }

    /// The numbers of an accepted design's tables, and of the rounds of its first
    /// load, with what is said about it before.
    fn first_load(report: &str) -> Option<(usize, &str, usize)> {
        let mut lines = report.lines();
        let tables = lines.next()?.split(' ').nth(1)?.parse().ok()?;
        let evenness = lines.next()?;
        let rounds = lines.next()?.strip_prefix("1 loaded ")?;
        Some((tables, evenness, rounds.split(' ').nth(1)?.parse().ok()?))
    }

    #[test]
    fn the_first_load_takes_as_many_rounds_as_it_can() {
        for report in reports(most_rounds) {
            let (tables, evenness, rounds) = first_load(&report).expect("a load");
            assert_eq!((evenness, rounds), ("0 even", 2 * tables - 1), "{report}");
        }
    }

    #[test]
    fn cycles_are_even_or_uneven() {
        let even = reports(cycles).filter(|report| report.contains("\n0 even\n"));
        let uneven = reports(cycles).filter(|report| report.contains("\n0 uneven "));
        assert!(even.count() > 150 && uneven.count() > 100);
    }

    #[test]
    fn two_rings_are_uneven_unless_a_constraint_is_missing() {
        for report in reports(two_rings) {
            let mut lines = report.lines();
            let head = lines.next().unwrap_or_default();
            let line = lines.next().unwrap_or_default();
            if let ["design", tables, constraints, ..] = head.split(' ').collect::<Vec<_>>()[..] {
                let [tables, constraints]: [usize; 2] =
                    [tables, constraints].map(|count| count.parse().expect("a number"));
                assert_eq!(
                    line.starts_with("0 uneven "),
                    constraints > tables,
                    "{report}"
                );
            }
        }
    }

    #[test]
    fn several_rings_have_knots_of_all_sizes() {
        let knots = reports(several_rings).filter_map(|report| {
            let line = report.lines().find(|line| line.starts_with("1 knot "))?;
            Some(line.split(' ').count() - 2)
        });
        let mut sizes = [0; 17];
        knots.for_each(|size| sizes[size] += 1);
        assert!(sizes[1..=4].iter().all(|&count| count > 20), "{sizes:?}");
    }

    #[test]
    fn linking_evenly_leaves_designs_even() {
        for number in 0..500 {
            let mut random = Random::new(2, number);
            let draft = Draft::linked(&mut random, &Shape::SPARSE, link_evenly);
            let commands = [draft.design.commands(), vec![Command::Even]].concat();
            let report = reference::report(&notation::encode(&commands));
            let accepted = report.starts_with("design ");
            assert!(!accepted || report.ends_with("\n0 even\n"), "{report}");
        }
    }
}
