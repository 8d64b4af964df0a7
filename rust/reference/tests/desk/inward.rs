//! Totals from the last join inward (document 02, Req 05): what listing would
//! give, however many lists there are.

use std::time::{Duration, Instant};

use crate::bytes::*;
use crate::lines::lines;

const LARGEST: u32 = u32::MAX;

#[test]
fn any_five_of_512_rows() {
    let four = [(0, 0), (1, 0), (2, 0), (3, 0)];
    let script = [
        table(1, 0),
        constraint((0, 0), (0, 0)),
        filling((0, 0), 1, 9),
        row(0, &[1]).repeat(512),
        end(),
        refer(0, 1),
        total((0, 0), 1, &four, (0, 0)),
        query((0, 0), 1, &four),
    ]
    .concat();
    let start = Instant::now();
    let expected = [
        "0 loaded 512 0",
        "1 total 35184372088832",
        "2 refused 11 17452",
    ];
    assert_eq!(lines(&script), expected);
    // walking through all of them would take days
    assert!(start.elapsed() < Duration::from_secs(60));
}

/// A row of table 0 whose link is a blank or leads to 300 rows with the largest
/// cell, which are loaded by themselves.
fn beside_a_group(link: u32) -> Vec<u8> {
    [
        table(2, 0),
        table(2, 0),
        constraint((0, 1), (1, 0)),
        constraint((1, 0), (1, 0)),
        filling((0, 0), 1, 99),
        filling((1, 0), 1, 99),
        row(0, &[1, link]),
        row(1, &[10, LARGEST]).repeat(300),
        end(),
        refer(1, 10),
    ]
    .concat()
}

#[test]
fn a_group_that_no_list_reaches() {
    let joins = [(0, 0), (1, 1), (2, 1), (3, 1)];
    let script = [
        beside_a_group(0),
        total((0, 0), 1, &joins, (1, 1)),
        total((1, 0), 10, &[(0, 1), (1, 1), (2, 1), (3, 1)], (0, 1)),
        total((0, 0), 1, &joins, (4, 1)),
        total((0, 0), 1, &joins, (0, 0)),
    ]
    .concat();
    let expected = [
        "0 loaded 300 0",
        "1 total 0",
        "2 refused 13 10297",
        "3 total 0",
        "4 total 0",
    ];
    assert_eq!(lines(&script), expected);
}

/// The same group where a list reaches it: 300^4 lists.
#[test]
fn a_group_that_lists_reach() {
    let joins = [(0, 0), (1, 1), (2, 1), (3, 1)];
    let script = [
        beside_a_group(10),
        total((0, 0), 1, &joins, (1, 1)),
        total((0, 0), 1, &joins, (0, 0)),
        total((0, 0), 1, &joins[..3], (1, 1)),
    ]
    .concat();
    let place = beside_a_group(10).len();
    let refused = format!("1 refused 13 {place}");
    let three = format!("3 total {}", 27_000_000 * u64::from(LARGEST));
    let expected = ["0 loaded 300 0", &refused, "2 total 8100000000", &three];
    assert_eq!(lines(&script), expected);
}

/// Two joins from position 0: each cell counts once for each row of the other
/// branch.
#[test]
fn a_star() {
    let star = |cell| total((0, 0), 1, &[(0, 0), (0, 1)], cell);
    let script = [
        table(2, 0).repeat(3),
        constraint((0, 0), (1, 0)),
        constraint((0, 1), (2, 0)),
        filling((0, 0), 1, 9),
        row(0, &[1, 5]),
        row(0, &[1, 6]),
        row(1, &[1, 100]),
        row(1, &[1, 200]),
        row(2, &[5, 3]),
        row(2, &[5, 4]),
        row(2, &[6, 7]),
        end(),
        star((2, 1)),
        star((1, 1)),
        star((0, 1)),
    ]
    .concat();
    let expected = ["0 total 28", "1 total 900", "2 total 32"];
    assert_eq!(lines(&script), expected);
}

/// The product of two branches passes the limit only if a third has a row.
#[test]
fn a_branch_without_rows() {
    let script = |third: u32| {
        [
            table(4, 0),
            table(2, 0),
            constraint((0, 1), (1, 0)),
            constraint((0, 2), (1, 0)),
            constraint((0, 3), (1, 0)),
            constraint((1, 0), (1, 0)),
            filling((0, 0), 1, 9),
            row(0, &[1, 10, 10, third]),
            row(1, &[10, LARGEST]).repeat(257),
            end(),
            total((0, 0), 1, &[(0, 0), (1, 3), (0, 1), (0, 2)], (1, 1)),
            probe((0, 0), 1),
        ]
        .concat()
    };
    assert_eq!(lines(&script(11)), ["0 total 0", "1 ground 1 1"]);
    let full = script(10);
    let refused = format!("0 refused 13 {}", full.len() - 7 - 18);
    assert_eq!(lines(&full), [refused.as_str(), "1 sent"]);
}
