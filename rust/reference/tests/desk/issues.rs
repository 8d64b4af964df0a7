//! Numbers that are issued again (document 02, Req 06): a value is a number and an
//! issue, and equals another only if both are the same.

use crate::bytes::*;
use crate::lines::lines;
use reference::report;

/// Subjects (number, ward) and their recordings (subject, minutes). Subject 7 was
/// issued twice, and a recording belongs to an issue that no subject has.
fn reissued() -> Vec<u8> {
    [
        table(2, 0b01),
        table(2, 0),
        constraint((0, 0), (1, 0)),
        filling((0, 0), 1, 99),
        row(0, &[7, 3]),
        row_with_issues(0, &[(7, 1), (3, 0)]),
        row(1, &[7, 30]),
        row_with_issues(1, &[(7, 1), (40, 0)]),
        row_with_issues(1, &[(7, 1), (50, 0)]),
        row_with_issues(1, &[(7, 2), (60, 0)]),
        end(),
    ]
    .concat()
}

fn lines_after(operations: &[Vec<u8>]) -> Vec<String> {
    lines(&[reissued(), operations.concat()].concat())
}

#[test]
fn two_issues_of_one_number() {
    let asked = query((1, 0), 7, &[]);
    let lines = lines_after(&[
        refer(0, 7),
        probe((0, 0), 7),
        with_issue(1, &probe((0, 0), 7)),
        asked.clone(),
        with_issue(1, &asked),
        with_issue(1, &refer(0, 7)),
        with_issue(1, &asked),
        drop(0, 7),
        probe((1, 0), 7),
        with_issue(1, &probe((1, 0), 7)),
        with_issue(1, &drop(0, 7)),
    ]);
    let expected = [
        "0 loaded 2 1",
        "1 ground 1 1",
        "2 sent",
        "3 answer 1",
        "2",
        "4 sent",
        "5 loaded 3 1",
        "6 answer 2",
        "3",
        "4",
        "7 dropped 2",
        "8 sent",
        "9 ground 2 2",
        "10 dropped 3",
    ];
    assert_eq!(lines, expected);
}

#[test]
fn totals_add_numbers_alone() {
    let minutes = total((0, 0), 7, &[(0, 0)], (1, 1));
    let subjects = total((0, 0), 7, &[(0, 0)], (0, 0));
    let lines = lines_after(&[
        minutes.clone(),
        with_issue(1, &minutes),
        with_issue(1, &subjects),
        with_issue(2, &minutes),
    ]);
    let expected = ["0 total 30", "1 total 90", "2 total 14", "3 total 0"];
    assert_eq!(lines, expected);
}

/// Cells that are added up may have issues: they don't count.
#[test]
fn the_issue_of_an_added_cell() {
    let script = [
        table(2, 0),
        filling((0, 0), 1, 9),
        row_with_issues(0, &[(1, 0), (5, 200)]),
        row_with_issues(0, &[(1, 0), (5, 3)]),
        end(),
        total((0, 0), 1, &[], (0, 1)),
    ]
    .concat();
    assert_eq!(lines(&script), ["0 total 10"]);
}

/// The old bytes mean issue 0, and so does an issue byte 0.
#[test]
fn an_issue_byte_0() {
    let lines = lines_after(&[
        with_issue(0, &refer(0, 7)),
        refer(0, 7),
        probe((0, 0), 7),
        with_issue(0, &probe((0, 0), 7)),
        with_issue(0, &query((1, 0), 7, &[])),
        drop(0, 7),
        with_issue(0, &drop(0, 7)),
    ]);
    let refused = format!("6 refused 10 {}", reissued().len() + 7 + 6 + 7 + 8 + 17 + 6);
    let expected = [
        "0 loaded 2 1",
        "1 held",
        "2 ground 1 1",
        "3 ground 1 1",
        "4 answer 1",
        "2",
        "5 dropped 2",
        &refused,
    ];
    assert_eq!(lines, expected);
}

#[test]
fn unique_columns_take_each_issue_once() {
    let seven = |issue| row_with_issues(0, &[(7, issue)]);
    let head = table(1, 0b1);
    let twice = [head.clone(), seven(1), seven(1), end()].concat();
    assert_eq!(report(&twice), "refused 6 45\n");
    let thrice = [head.clone(), seven(1), row(0, &[7]), seven(2), end()].concat();
    assert_eq!(report(&thrice), "design 1 0 0 3\n");
    let again = [head, seven(1), row(0, &[7]), row(0, &[7]), end()].concat();
    assert_eq!(report(&again), format!("refused 6 {}\n", 3 + 42 + 34));
}

#[test]
fn issues_that_no_row_may_have() {
    let wrong: [&[Cell]; 6] = [
        &[(7, 0), (8, 0)],
        &[(0, 0), (0, 0)],
        &[(7, 1), (0, 1)],
        &[(0, 1)],
        &[(7, 1), (8, 0), (0, 1)],
        &[
            (7, 1),
            (8, 0),
            (0, 0),
            (0, 0),
            (0, 0),
            (0, 0),
            (0, 0),
            (0, 255),
        ],
    ];
    for cells in wrong {
        let script = [table(2, 0), row_with_issues(0, cells), end()].concat();
        assert_eq!(report(&script), "refused 5 3\n", "{cells:?}");
    }
    let script = [table(2, 0), row_with_issues(1, &[(7, 1)]), end()].concat();
    assert_eq!(report(&script), "refused 5 3\n", "no such table");
    let script = [table(2, 0), row_with_issues(0, &[(0, 0), (7, 255)]), end()].concat();
    assert_eq!(report(&script), "design 1 0 0 1\n");
}

#[test]
fn rows_with_issues_stand_among_the_rows() {
    let issued = row_with_issues(0, &[(7, 1)]);
    let behind = [table(1, 0), issued.clone(), filling((0, 0), 1, 9), end()].concat();
    assert_eq!(report(&behind), "refused 3 45\n");
    let behind_end = [table(1, 0), end(), issued].concat();
    assert_eq!(report(&behind_end), "design 1 0 0 0\n0 refused 3 4\n");
}

/// A largest count goes before the issues, and operands before uniqueness.
#[test]
fn rows_with_issues_count_as_rows() {
    let issued = row_with_issues(0, &[(7, 1)]);
    let without = row_with_issues(0, &[(7, 0)]);
    let full = [table(1, 0), issued.repeat(512)].concat();
    let script = |last: &[u8]| [&full, last, &end()].concat();
    assert_eq!(report(&script(&[])), "design 1 0 0 512\n");
    let refused = format!("refused 4 {}\n", full.len());
    assert_eq!(report(&script(&issued)), refused);
    assert_eq!(report(&script(&without)), refused);
    let unique = [table(2, 0b1), row_with_issues(0, &[(7, 1)])].concat();
    let both = [&unique[..], &row_with_issues(0, &[(7, 1), (0, 1)]), &end()].concat();
    assert_eq!(report(&both), format!("refused 5 {}\n", unique.len()));
}

/// A refused operation with its cause.
#[test]
fn operations_with_issues_are_refused_as_without() {
    let place = reissued().len();
    let faulty = [
        (refer(0, 0), 9),
        (drop(0, 0), 9),
        (probe((0, 0), 0), 9),
        (query((0, 0), 0, &[]), 9),
        (total((0, 0), 0, &[], (0, 0)), 9),
        (refer(1, 0), 5),
        (drop(1, 7), 5),
        (probe((2, 0), 7), 5),
        (query((0, 0), 0, &[(0, 1)]), 5),
        (total((0, 0), 0, &[], (0, 2)), 5),
        (drop(0, 7), 10),
    ];
    for (operation, cause) in faulty {
        let lines = lines_after(&[with_issue(5, &operation), probe((0, 0), 7)]);
        let refused = format!("0 refused {cause} {place}");
        assert_eq!(lines, [refused.as_str(), "1 sent"], "{operation:?}");
    }
}

#[test]
fn candidates_go_by_number_alone() {
    let asked = with_issue(255, &query((0, 0), 9, &[]));
    let lines = lines_after(&[
        with_issue(1, &refer(0, 100)),
        with_issue(9, &refer(0, 99)),
        with_issue(1, &query((0, 0), 100, &[])),
        asked,
        drop(0, 9),
        with_issue(255, &drop(0, 9)),
    ]);
    let refused = format!("4 refused 10 {}", reissued().len() + 7 + 7 + 17 + 17);
    let expected = [
        "0 no candidate",
        "1 loaded 0 0",
        "2 sent",
        "3 answer 0",
        &refused,
        "5 dropped 0",
    ];
    assert_eq!(lines, expected);
}

/// There is no report with an issue.
#[test]
fn byte_0x24_is_unknown() {
    let lines = lines_after(&[even(), vec![0x24, 0], probe((0, 0), 7)]);
    let refused = format!("1 refused 2 {}", reissued().len() + 1);
    assert_eq!(lines, ["0 even", &refused]);
}

/// Each issue of a held number has its own place among the 16.
#[test]
fn issues_take_places_of_their_own() {
    let held: Vec<u8> = (0..16)
        .flat_map(|issue| with_issue(issue, &refer(0, 8)))
        .collect();
    let lines = lines_after(&[
        held,
        with_issue(16, &refer(0, 8)),
        with_issue(15, &refer(0, 8)),
        with_issue(16, &query((0, 0), 8, &[])),
    ]);
    let refused = format!("16 refused 8 {}", reissued().len() + 16 * 7);
    assert_eq!(lines[16..], [refused.as_str(), "17 held", "18 sent"]);
}

/// Demands, joins and the rounds of a load go by number and issue too.
#[test]
fn links_lead_from_an_issue_to_the_same() {
    let script = [
        table(2, 0),
        constraint((0, 1), (0, 0)),
        filling((0, 0), 1, 9),
        row_with_issues(0, &[(1, 0), (2, 5)]),
        row(0, &[2, 3]),
        row_with_issues(0, &[(2, 5), (3, 1)]),
        row(0, &[3]),
        row_with_issues(0, &[(3, 1), (1, 1)]),
        end(),
        refer(0, 1),
        query((0, 0), 1, &[(0, 0), (1, 0)]),
        with_issue(1, &probe((0, 0), 1)),
        probe((0, 0), 3),
    ]
    .concat();
    let expected = [
        "0 loaded 3 2",
        "1 answer 1",
        "0 2 4",
        "2 ground 2 0",
        "3 sent",
    ];
    assert_eq!(lines(&script), expected);
}
