//! Totals (document 02, Req 03): the sum of a cell over all lists of a query.

use crate::bytes::*;
use crate::lines::lines;
use crate::random::Random;

const LARGEST: u32 = u32::MAX;

/// Subjects (number, ward) and their events (subject, seconds); wards 1 to 9 can
/// be loaded.
fn seconds() -> Vec<u8> {
    [
        table(2, 0b01),
        table(2, 0),
        constraint((0, 0), (1, 0)),
        filling((0, 1), 1, 9),
        row(0, &[7, 1]),
        row(0, &[8, 1]),
        row(1, &[7, 30]),
        row(1, &[7, 12]),
        row(1, &[8, 0]),
        row(1, &[9, 99]),
        end(),
    ]
    .concat()
}

#[test]
fn the_sum_of_a_cell_over_all_lists() {
    let joined = [(0, 0)];
    let script = [
        seconds(),
        total((0, 1), 1, &joined, (1, 1)),
        total((0, 1), 1, &joined, (0, 0)),
        total((0, 1), 2, &joined, (1, 1)),
        total((0, 1), 10, &joined, (1, 1)),
        total((0, 1), 1, &[], (0, 1)),
    ]
    .concat();
    let expected = [
        "0 total 42",
        "1 total 22",
        "2 total 0",
        "3 sent",
        "4 total 2",
    ];
    assert_eq!(lines(&script), expected);
}

/// The operands are looked at before the value 0, the position and the column
/// among them.
#[test]
fn positions_and_columns_that_are_not_there() {
    let query = query((0, 1), 1, &[(0, 0)]);
    let nothing = crate::bytes::query((0, 1), 0, &[]);
    let faulty = [
        (total_of(&query, (2, 0)), 5),
        (total_of(&query, (255, 0)), 5),
        (total_of(&query, (0, 2)), 5),
        (total_of(&query, (1, 2)), 5),
        (total_of(&query, (1, 255)), 5),
        (total_of(&nothing, (1, 0)), 5),
        (total_of(&nothing, (0, 2)), 5),
        (total_of(&nothing, (0, 0)), 9),
        (total((0, 1), 1, &[(0, 1)], (0, 0)), 5),
        (total((2, 0), 1, &[], (0, 0)), 5),
    ];
    for (faulty, cause) in faulty {
        let script = [seconds(), faulty.clone(), probe((0, 1), 1)].concat();
        let refused = format!("0 refused {cause} {}", seconds().len());
        assert_eq!(lines(&script), [refused.as_str(), "1 sent"], "{faulty:?}");
    }
}

/// The tables of the positions may have different numbers of columns.
#[test]
fn a_column_is_one_of_its_position() {
    let script = [
        table(1, 0),
        table(8, 0),
        constraint((0, 0), (1, 0)),
        filling((0, 0), 1, 9),
        row(0, &[1]),
        row(1, &[1, 0, 0, 0, 0, 0, 0, 5]),
        end(),
        total((0, 0), 1, &[(0, 0)], (1, 7)),
        total((0, 0), 1, &[(0, 0)], (0, 7)),
        total((0, 0), 1, &[(0, 0)], (0, 0)),
    ]
    .concat();
    let refused = format!("1 refused 5 {}", script.len() - 36);
    assert_eq!(lines(&script), ["0 total 5", &refused, "2 total 1"]);
}

#[test]
fn a_total_refers_its_value_as_a_query_does() {
    let script = [
        seconds(),
        total((0, 1), 1, &[], (0, 0)),
        probe((0, 1), 1),
        refer(0, 1),
        drop(0, 1),
        total((1, 0), 7, &[], (0, 1)),
        total((0, 1), 5, &[], (0, 0)),
        probe((0, 1), 5),
    ]
    .concat();
    let expected = [
        "0 total 15",
        "1 ground 1 2",
        "2 held",
        "3 dropped 5",
        "4 sent",
        "5 total 0",
        "6 ground 1 0",
    ];
    assert_eq!(lines(&script), expected);
}

#[test]
fn at_16_held_values_a_total_is_sent() {
    let held: Vec<u8> = (10..=25).flat_map(|value| refer(0, value)).collect();
    let script = script_a(&[
        held,
        total((0, 1), 3, &[], (0, 0)),
        drop(0, 10),
        total((0, 1), 3, &[], (0, 0)),
        total((0, 1), 4, &[], (0, 0)),
    ]);
    let expected = ["16 sent", "17 dropped 0", "18 total 15", "19 sent"];
    assert_eq!(lines(&script)[16..], expected);
}

#[test]
fn a_value_with_another_ground_is_not_referred() {
    let script = [
        table(1, 0),
        table(1, 0),
        constraint((0, 0), (1, 0)),
        filling((0, 0), 1, 9),
        filling((1, 0), 1, 9),
        row(0, &[3]),
        row(1, &[3]).repeat(4),
        end(),
        refer(0, 3),
        total((1, 0), 3, &[], (0, 0)),
        drop(1, 3),
    ]
    .concat();
    let refused = format!("2 refused 10 {}", script.len() - 6);
    assert_eq!(lines(&script), ["0 loaded 5 1", "1 total 12", &refused]);
}

/// Rows that aren't cached add nothing, even where they have the value.
#[test]
fn only_lists_with_a_ground_are_added() {
    let script = [
        seconds(),
        total((1, 0), 9, &[], (0, 1)),
        refer(0, 1),
        total((1, 0), 9, &[], (0, 1)),
        total((1, 0), 7, &[], (0, 1)),
    ]
    .concat();
    assert_eq!(
        lines(&script),
        ["0 sent", "1 loaded 5 1", "2 sent", "3 total 42"]
    );
}

/// Two rows with the largest cell: one with 256^4 lists and one with a single
/// list, and perhaps more rows with a single one. Four joins.
fn large(more: &[u32]) -> Vec<u8> {
    let more = more.iter().flat_map(|&cell| row(0, &[1, 11, cell]));
    [
        table(3, 0),
        table(1, 0),
        constraint((0, 1), (1, 0)),
        constraint((1, 0), (1, 0)),
        filling((0, 0), 1, 9),
        row(0, &[1, 10, LARGEST]),
        row(0, &[1, 11, LARGEST]),
        more.collect(),
        row(1, &[10]).repeat(256),
        row(1, &[11]),
        end(),
    ]
    .concat()
}

const FOUR: [(u8, u8); 4] = [(0, 0), (1, 1), (2, 1), (3, 1)];

#[test]
fn the_largest_total() {
    let script = [
        large(&[]),
        total((0, 0), 1, &FOUR, (0, 2)),
        probe((0, 0), 1),
    ]
    .concat();
    let expected = ["0 total 18446744073709551615", "1 ground 1 2"];
    assert_eq!(lines(&script), expected);
}

#[test]
fn one_more_is_refused_and_its_reference_undone() {
    let script = [
        large(&[1]),
        total((0, 0), 1, &FOUR, (0, 2)),
        probe((0, 0), 1),
        refer(0, 1),
        total((0, 0), 1, &FOUR, (0, 2)),
        probe((0, 0), 1),
        total((0, 0), 1, &FOUR[..3], (0, 2)),
    ]
    .concat();
    // 256^3 lists of one row, and one list each of two others.
    let less = u64::from(LARGEST) * (16_777_216 + 1) + 1;
    let refused = format!("3 refused 13 {}", 8_868 + 18 + 7 + 6);
    let total = format!("5 total {less}");
    let expected = [
        "0 refused 13 8868",
        "1 sent",
        "2 loaded 260 1",
        &refused,
        "4 ground 1 3",
        &total,
    ];
    assert_eq!(lines(&script), expected);
}

/// Blanks count as 0, and a row counts once for each of its lists.
#[test]
fn a_row_counts_once_for_each_list() {
    let script = [
        table(2, 0),
        constraint((0, 0), (0, 0)),
        filling((0, 0), 1, 9),
        row(0, &[1, 5]),
        row(0, &[1, 0]),
        row(0, &[1, 7]),
        end(),
        total((0, 0), 1, &[], (0, 1)),
        total((0, 0), 1, &[(0, 0)], (0, 1)),
        total((0, 0), 1, &[(0, 0)], (1, 1)),
        total((0, 0), 1, &[(0, 0), (0, 0), (1, 0)], (2, 1)),
    ]
    .concat();
    let expected = ["0 total 12", "1 total 36", "2 total 36", "3 total 324"];
    assert_eq!(lines(&script), expected);
}

/// A design up to END, its rows, and the cell of a query on it.
struct Asked {
    design: Vec<u8>,
    rows: Vec<[u32; 3]>,
    query: Vec<u8>,
    cell: (u8, u8),
}

/// A few tables of three columns with few values, and any joins.
fn any(random: &mut Random) -> Asked {
    let tables = random.within(1, 3) as u8;
    let column = |random: &mut Random| (random.below(tables.into()) as u8, random.below(3) as u8);
    let mut links: Vec<(Column, Column)> = Vec::new();
    for _ in 0..random.within(1, 6) {
        let link = (column(random), column(random));
        if !links.contains(&link) {
            links.push(link);
        }
    }
    let mut script = table(3, 0).repeat(tables.into());
    let constraints = links.iter();
    script.extend(constraints.flat_map(|&(source, target)| constraint(source, target)));
    let asked = column(random);
    script.extend(filling(asked, 1, 9));
    let mut rows = Vec::new();
    for _ in 0..random.below(14) {
        let cells = [(); 3].map(|()| random.below(4) as u32);
        script.extend(row(random.below(tables.into()) as u8, &cells));
        rows.push(cells);
    }
    script.extend(end());
    let mut positions = vec![asked.0];
    let mut joins = Vec::new();
    for _ in 0..random.below(4) {
        let position = random.below(positions.len());
        let number = random.below(links.len());
        let (source, target) = links[number];
        if source.0 == positions[position] {
            joins.push((position as u8, number as u8));
            positions.push(target.0);
        }
    }
    Asked {
        design: script,
        rows,
        query: query(asked, 1 + random.below(3) as u32, &joins),
        cell: (random.below(positions.len()) as u8, random.below(3) as u8),
    }
}

/// Each total is what adding up the lists of the query gives.
#[test]
fn totals_are_the_sums_over_lists() {
    let mut added = 0;
    for number in 0..3_000 {
        let Asked {
            design,
            rows,
            query,
            cell,
        } = any(&mut Random::new(number));
        let listed = lines(&[design.clone(), query.clone()].concat());
        if listed[0].starts_with("0 refused") {
            continue;
        }
        let list_cell = |list: &String| {
            let row = list.split(' ').nth(cell.0.into()).expect("a position");
            let row: usize = row.parse().expect("a row's number");
            u64::from(rows[row][usize::from(cell.1)])
        };
        let sum: u64 = listed[1..].iter().map(list_cell).sum();
        let total = lines(&[design, total_of(&query, cell)].concat());
        assert_eq!(total, [format!("0 total {sum}")]);
        added += usize::from(sum > 0);
    }
    assert!(added > 1_000, "only {added} totals");
}
