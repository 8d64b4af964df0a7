//! In an even design of T tables no load takes more than 2T - 1 later rounds
//! (document 02, Req 01): designs in which one takes as many.

use crate::bytes::*;
use crate::lines::lines;

#[test]
fn one_table_takes_one_round() {
    let script = [
        table(2, 0),
        constraint((0, 0), (0, 0)),
        filling((0, 1), 1, 9),
        row(0, &[5, 1]),
        row(0, &[5, 2]),
        end(),
        even(),
        refer(0, 1),
    ]
    .concat();
    assert_eq!(lines(&script), ["0 even", "1 loaded 2 1"]);
}

#[test]
fn two_tables_take_three_rounds() {
    let script = [
        table(3, 0),
        table(2, 0),
        constraint((0, 0), (0, 0)),
        constraint((0, 1), (1, 0)),
        constraint((1, 1), (1, 1)),
        filling((0, 2), 1, 9),
        row(0, &[5, 0, 1]),
        row(0, &[5, 6, 0]),
        row(1, &[6, 7]),
        row(1, &[0, 7]),
        end(),
        even(),
        refer(0, 1),
    ]
    .concat();
    assert_eq!(lines(&script), ["0 even", "1 loaded 4 3"]);
}

/// Each table of a chain is linked to itself and to the next. The row that the
/// table before demands demands another row of its own table and nothing else,
/// and that one demands a row of the next table: two rounds for each table.
#[test]
fn chains_take_two_rounds_for_each_table() {
    for tables in 1..=8 {
        for (name, chain) in [
            ("three columns", chain_of_three_columns(tables)),
            ("two columns", chain_of_two_columns(tables, |place| place)),
            (
                "backwards",
                chain_of_two_columns(tables, |place| tables - 1 - place),
            ),
        ] {
            let loaded = format!("1 loaded {} {}", 2 * tables, 2 * tables - 1);
            let script = [chain, even(), refer(0, 1)].concat();
            assert_eq!(lines(&script), ["0 even", &loaded], "{tables}, {name}");
        }
    }
}

/// Column 0 leads to itself, and column 1 to column 2 of the next table.
fn chain_of_three_columns(tables: u8) -> Vec<u8> {
    let each = 0..tables;
    let tables_of_three = each.clone().flat_map(|_| table(3, 0));
    let loops = each.clone().flat_map(|t| constraint((t, 0), (t, 0)));
    let ways = each
        .clone()
        .skip(1)
        .flat_map(|t| constraint((t - 1, 1), (t, 2)));
    let rows = each.flat_map(|t| {
        let (before, after) = (1 + u32::from(t), 2 + u32::from(t));
        [row(t, &[5, 0, before]), row(t, &[5, after, 0])].concat()
    });
    tables_of_three
        .chain(loops)
        .chain(ways)
        .chain(filling((0, 2), 1, 9))
        .chain(rows)
        .chain(end())
        .collect()
}

/// Column 0 leads to itself, and column 1 to column 1 of the next table. Each
/// place of the chain has a table's number.
fn chain_of_two_columns(tables: u8, number: impl Fn(u8) -> u8) -> Vec<u8> {
    let mut links = Vec::new();
    let mut rows = Vec::new();
    for place in 0..tables {
        let here = number(place);
        links.extend(constraint((here, 0), (here, 0)));
        if place + 1 < tables {
            links.extend(constraint((here, 1), (number(place + 1), 1)));
        }
        rows.extend(row(here, &[7, 1 + u32::from(place)]));
        rows.extend(row(here, &[7, 2 + u32::from(place)]));
    }
    let head = table(2, 0).repeat(tables.into());
    let first = filling((number(0), 1), 1, 9);
    [head, links, first, rows, end()].concat()
}
