//! Document 01's cases A and B and its marked cases a1 to a7 and b1 to b5.

use crate::bytes::*;
use reference::{report, report_lending};

fn query_a4() -> Vec<u8> {
    query((0, 1), 3, &[(0, 0), (1, 1)])
}

#[test]
fn case_a() {
    let script = script_a(&[
        refer(0, 3),
        probe((1, 1), 8),
        probe((1, 1), 9),
        query_a4(),
        drop(0, 3),
    ]);
    let expected = "\
design 3 2 1 8
0 loaded 5 2
1 ground 2 0
2 sent
3 answer 2
0 3 5
0 3 6
4 dropped 5
";
    assert_eq!(report(&script), expected);
}

#[test]
fn after_the_load_of_case_a() {
    let script = script_a(&[
        refer(0, 3),
        probe((1, 0), 20),
        query((1, 1), 8, &[]),
        probe((0, 1), 3),
    ]);
    let expected = "\
design 3 2 1 8
0 loaded 5 2
1 ground 3 1
2 answer 0
3 ground 1 2
";
    assert_eq!(report(&script), expected);
}

#[test]
fn the_answer_of_case_a_needs_six_words() {
    let script = script_a(&[refer(0, 3), query_a4(), probe((0, 1), 3)]);
    let place = DESIGN_A_LENGTH + 6;
    let refused = format!("design 3 2 1 8\n0 loaded 5 2\n1 refused 11 {place}\n2 ground 1 2\n");
    let answered = "design 3 2 1 8\n0 loaded 5 2\n1 answer 2\n0 3 5\n0 3 6\n2 ground 1 2\n";
    assert_eq!(report_lending(&script, 5), refused);
    assert_eq!(report_lending(&script, 6), answered);
}

#[test]
fn case_b() {
    let script = script_b(&[
        refer(0, 1),
        probe((0, 0), 2),
        refer(0, 2),
        drop(0, 1),
        drop(0, 2),
    ]);
    let expected = "\
design 2 2 1 3
0 loaded 3 2
1 sent
2 loaded 0 0
3 dropped 0
4 dropped 3
";
    assert_eq!(report(&script), expected);
}

#[test]
fn a_value_that_no_row_has_is_held() {
    let script = script_a(&[
        refer(0, 50),
        probe((0, 1), 50),
        query((0, 1), 50, &[(0, 0)]),
        refer(0, 50),
        drop(0, 50),
        probe((0, 1), 50),
    ]);
    let expected = "\
design 3 2 1 8
0 loaded 0 0
1 ground 1 0
2 answer 0
3 held
4 dropped 0
5 sent
";
    assert_eq!(report(&script), expected);
}

#[test]
fn a_blank_demands_nothing_and_is_demanded_by_nothing() {
    let script = [
        table(2, 0b01),
        constraint((0, 1), (0, 0)),
        filling((0, 0), 1, 9),
        row(0, &[1]),
        row(0, &[0, 0]),
        row(0, &[2, 1]),
        end(),
        refer(0, 1),
        refer(0, 2),
    ]
    .concat();
    let expected = "design 1 1 1 3\n0 loaded 1 0\n1 loaded 1 0\n";
    assert_eq!(report(&script), expected);
}

#[test]
fn two_values_share_rows_until_both_are_dropped() {
    let script = [
        table(2, 0),
        table(1, 0),
        constraint((0, 1), (1, 0)),
        filling((0, 0), 1, 9),
        filling((1, 0), 1, 9),
        row(0, &[1, 5]),
        row(0, &[2, 5]),
        row(1, &[5]),
        end(),
        refer(0, 1),
        refer(0, 2),
        refer(1, 5),
        drop(0, 1),
        drop(0, 2),
        probe((1, 0), 5),
        drop(1, 5),
    ]
    .concat();
    let expected = "\
design 2 1 2 3
0 loaded 2 1
1 loaded 1 0
2 loaded 0 0
3 dropped 1
4 dropped 1
5 ground 1 1
6 dropped 1
";
    assert_eq!(report(&script), expected);
}
