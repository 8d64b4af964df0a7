//! The report on even designs (document 02, Req 01): which constraints it names,
//! and where it is refused.

use crate::bytes::*;
use reference::report;

/// The constraints of a design, each from a source to a target.
pub type Links<'a> = &'a [(Column, Column)];

/// Tables of so many columns and constraints, without END.
pub fn linked(columns: &[u8], links: Links) -> Vec<u8> {
    let tables = columns.iter().flat_map(|&columns| table(columns, 0));
    let links = links
        .iter()
        .flat_map(|&(source, target)| constraint(source, target));
    tables.chain(links).collect()
}

/// What the report says about a design.
fn evenness(columns: &[u8], links: Links) -> String {
    let report = report(&[linked(columns, links), end(), even()].concat());
    let (head, line) = report.split_once('\n').expect("a head");
    assert!(head.starts_with("design "), "{head}");
    let line = line.strip_prefix("0 ").and_then(|l| l.strip_suffix('\n'));
    line.expect("one line").to_string()
}

/// Tables in a ring, of which each leads to the next at column 0.
pub fn ring(tables: u8) -> Vec<(Column, Column)> {
    let links = (0..tables).map(|table| ((table, 0), ((table + 1) % tables, 0)));
    links.collect()
}

#[test]
fn staff_linked_to_supervisors() {
    let script = [
        table(2, 0b01),
        constraint((0, 1), (0, 0)),
        filling((0, 0), 1, 9),
        row(0, &[1, 2]),
        row(0, &[2, 3]),
        row(0, &[3, 4]),
        row(0, &[4, 5]),
        row(0, &[5, 0]),
        end(),
        even(),
        refer(0, 1),
        even(),
    ]
    .concat();
    let expected = "design 1 1 1 5\n0 uneven 0 0\n1 loaded 5 4\n2 uneven 0 0\n";
    assert_eq!(report(&script), expected);
}

#[test]
fn two_tables_that_demand_each_other_at_different_columns() {
    let links = [((0, 1), (1, 0)), ((1, 0), (0, 0))];
    assert_eq!(evenness(&[2, 1], &links), "uneven 1 0");
}

#[test]
fn different_columns_without_a_way_back() {
    let links = [((0, 0), (1, 0)), ((1, 1), (2, 0))];
    assert_eq!(evenness(&[1, 2, 1], &links), "even");
    let links = [&links[..], &[((0, 0), (2, 0))]].concat();
    assert_eq!(evenness(&[1, 2, 1], &links), "even", "a second way there");
}

#[test]
fn cases_a_and_b() {
    let lines = report(&script_a(&[even(), refer(0, 3), even()]));
    assert_eq!(lines, "design 3 2 1 8\n0 even\n1 loaded 5 2\n2 even\n");
    let links = [((0, 1), (1, 0)), ((1, 0), (0, 1))];
    assert_eq!(evenness(&[2, 1], &links), "even");
}

#[test]
fn designs_without_constraints() {
    assert_eq!(evenness(&[], &[]), "even");
    assert_eq!(evenness(&[8; 8], &[]), "even");
}

#[test]
fn one_constraint_can_be_both() {
    assert_eq!(evenness(&[1], &[((0, 0), (0, 0))]), "even");
    assert_eq!(evenness(&[2], &[((0, 0), (0, 1))]), "uneven 0 0");
    assert_eq!(evenness(&[2], &[((0, 1), (0, 0))]), "uneven 0 0");
    let links = [((0, 1), (1, 0)), ((1, 0), (1, 2))];
    assert_eq!(evenness(&[2, 3], &links), "uneven 1 1");
}

#[test]
fn two_constraints_of_one_table() {
    let links = [((0, 0), (0, 0)), ((0, 1), (0, 1))];
    assert_eq!(evenness(&[2], &links), "uneven 0 1");
}

/// The constraint that ends at the table may stand before or behind the one that
/// starts there.
#[test]
fn either_can_be_the_lower_one() {
    let there = ((0, 0), (1, 0));
    let back = ((1, 1), (0, 0));
    assert_eq!(evenness(&[1, 2], &[there, back]), "uneven 0 1");
    assert_eq!(evenness(&[1, 2], &[back, there]), "uneven 1 0");
}

/// Constraints 0 and 2, 0 and 3, and 1 and 0 make the first design uneven.
#[test]
fn the_lowest_i_and_then_the_lowest_j() {
    let mut links = [
        ((1, 0), (0, 0)),
        ((0, 0), (1, 1)),
        ((0, 1), (1, 0)),
        ((0, 2), (1, 0)),
    ];
    assert_eq!(evenness(&[3, 2], &links), "uneven 0 2");
    links.reverse();
    assert_eq!(evenness(&[3, 2], &links), "uneven 2 3");
    links.swap(2, 3);
    assert_eq!(evenness(&[3, 2], &links), "uneven 2 0");
}

#[test]
fn rings_at_one_column_are_even() {
    for tables in 1..=8 {
        assert_eq!(evenness(&vec![2; tables], &ring(tables as u8)), "even");
    }
}

/// One constraint of a ring of T tables starts at another column than the one
/// before it ends at. From its target it takes T - 2 steps to the other's source.
#[test]
fn rings_left_at_another_column_are_uneven() {
    for tables in 2..=8 {
        for start in 0..tables {
            let mut links = ring(tables);
            links[usize::from(start)].0 .1 = 1;
            let before = (start + tables - 1) % tables;
            let expected = format!("uneven {before} {start}");
            assert_eq!(evenness(&vec![2; tables.into()], &links), expected);
        }
    }
}

/// Two rings that share a table, each at its own column of it: from one ring into
/// the other it takes seven steps through all eight tables, the shared one too.
#[test]
fn seven_steps_through_eight_tables() {
    for shared in 0..8 {
        let others: Vec<u8> = (0..8).filter(|&table| table != shared).collect();
        for length in 1..7 {
            let (one, other) = others.split_at(length);
            let links = [loop_from((shared, 0), one), loop_from((shared, 1), other)].concat();
            let expected = format!("uneven {length} {}", length + 1);
            assert_eq!(evenness(&[2; 8], &links), expected, "{shared} {length}");
            for missing in 0..links.len() {
                let mut links = links.clone();
                links.remove(missing);
                assert_eq!(evenness(&[2; 8], &links), "even", "{shared} {length}");
            }
        }
    }
}

/// From a column through other tables back to the column.
fn loop_from(column: Column, tables: &[u8]) -> Vec<(Column, Column)> {
    let inner = tables.iter().map(|&table| (table, 0));
    let places: Vec<Column> = [column].into_iter().chain(inner).chain([column]).collect();
    places.windows(2).map(|pair| (pair[0], pair[1])).collect()
}

#[test]
fn it_is_answered_whatever_is_held_and_changes_nothing() {
    let held: Vec<u8> = (1..=16).flat_map(|value| refer(0, value)).collect();
    let script = [
        table(2, 0b01),
        constraint((0, 1), (0, 0)),
        filling((0, 0), 1, 99),
        row(0, &[1, 70]),
        row(0, &[70, 0]),
        end(),
        even(),
        held,
        even(),
        refer(0, 17),
        even(),
        drop(0, 1),
        even(),
        probe((0, 0), 70),
    ]
    .concat();
    let report = report(&script);
    let place = script.len() - 7 - 1 - 6 - 1 - 6;
    let expected = format!(
        "17 uneven 0 0\n18 refused 8 {place}\n19 uneven 0 0\n20 dropped 2\n21 uneven 0 0\n22 sent\n"
    );
    assert!(
        report.contains("\n0 uneven 0 0\n1 loaded 2 1\n"),
        "{report}"
    );
    assert!(report.ends_with(&expected), "{report}");
}

#[test]
fn before_end_it_is_out_of_order() {
    let design = [
        table(2, 0),
        constraint((0, 0), (0, 1)),
        filling((0, 0), 1, 9),
        row(0, &[1]),
    ];
    for count in 0..=design.len() {
        let before = design[..count].concat();
        let expected = format!("refused 3 {}\n", before.len());
        let cut = [&before[..], &even()].concat();
        assert_eq!(report(&cut), expected, "and no END");
        let rest = [design[count..].concat(), end()].concat();
        assert_eq!(report(&[cut, rest].concat()), expected);
    }
}

#[test]
fn it_is_one_byte() {
    let script = [end(), end(), even(), even(), probe((0, 0), 1), even()].concat();
    let expected = "design 0 0 0 0\n0 refused 3 1\n1 even\n2 even\n3 refused 5 4\n4 even\n";
    assert_eq!(report(&script), expected);
}
