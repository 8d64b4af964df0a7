//! Refused operations: their causes, their places and what happens after them.

use crate::bytes::*;
use reference::report;

/// The lines after the head when `operations` follow case A's design.
fn lines_after_a(operations: &[Vec<u8>]) -> Vec<String> {
    let report = report(&script_a(operations));
    let mut lines = report.lines().map(String::from);
    assert_eq!(lines.next().as_deref(), Some("design 3 2 1 8"));
    lines.collect()
}

/// Checks that `faulty` is refused and that the desk goes on after it.
fn assert_refused(faulty: Vec<u8>, cause: u8, what: &str) {
    let place = DESIGN_A_LENGTH;
    let expected = [format!("0 refused {cause} {place}"), "1 sent".into()];
    assert_eq!(
        lines_after_a(&[faulty, probe((0, 0), 7)]),
        expected,
        "{what}"
    );
}

#[test]
fn an_operation_cut_short_is_the_last() {
    let place = DESIGN_A_LENGTH + 6;
    for (name, command) in one_of_each() {
        for length in 1..command.len() {
            let lines = lines_after_a(&[refer(0, 3), command[..length].to_vec()]);
            let expected = ["0 loaded 5 2".into(), format!("1 refused 1 {place}")];
            assert_eq!(lines, expected, "{length} bytes of {name}");
        }
    }
}

#[test]
fn an_unknown_byte_is_the_last() {
    let place = DESIGN_A_LENGTH + 6;
    let lines = lines_after_a(&[refer(0, 3), vec![0x16], drop(0, 3)]);
    assert_eq!(
        lines,
        ["0 loaded 5 2".into(), format!("1 refused 2 {place}")]
    );
}

#[test]
fn design_commands_after_end_are_refused_and_passed_over() {
    for (name, command) in design_commands() {
        assert_refused(command, 3, name);
    }
    assert_refused(table(0, 0), 3, "a wrong table");
}

#[test]
fn operands_that_name_nothing() {
    assert_refused(refer(1, 3), 5, "refer to no filling");
    assert_refused(drop(1, 3), 5, "drop from no filling");
    assert_refused(probe((3, 0), 3), 5, "probe of no table");
    assert_refused(probe((0, 2), 3), 5, "probe of no column");
    assert_refused(query((3, 0), 3, &[]), 5, "query of no table");
    assert_refused(query((0, 2), 3, &[]), 5, "query of no column");
}

#[test]
fn joins_that_name_nothing_or_do_not_fit() {
    assert_refused(query((0, 1), 3, &[(0, 2)]), 5, "no such constraint");
    assert_refused(query((0, 1), 3, &[(1, 0)]), 5, "no earlier position");
    assert_refused(query((0, 1), 3, &[(0, 0), (2, 1)]), 5, "its own position");
    assert_refused(query((0, 1), 3, &[(0, 1)]), 5, "from the wrong table");
    assert_refused(
        query((0, 1), 3, &[(0, 0), (0, 1)]),
        5,
        "from position 0's table",
    );
}

#[test]
fn join_counts_and_unused_pairs() {
    let fitting = [(0, 0); 4];
    assert_refused(raw_query((0, 1), 3, 5, fitting), 5, "five joins");
    assert_refused(raw_query((0, 1), 3, 255, fitting), 5, "255 joins");
    for pair in 0..4 {
        for unused in [(1, 0), (0, 1)] {
            let mut pairs = [(0, 0); 4];
            pairs[pair] = unused;
            let what = format!("unused pair {pair} is {unused:?}");
            assert_refused(raw_query((0, 1), 3, pair as u8, pairs), 5, &what);
        }
    }
}

#[test]
fn value_zero() {
    assert_refused(refer(0, 0), 9, "refer, though 0 is no candidate");
    assert_refused(drop(0, 0), 9, "drop, though 0 isn't held");
    assert_refused(probe((0, 0), 0), 9, "probe");
    assert_refused(query((0, 0), 0, &[]), 9, "query");
}

#[test]
fn operands_are_looked_at_before_value_zero() {
    assert_refused(refer(1, 0), 5, "refer");
    assert_refused(drop(1, 0), 5, "drop");
    assert_refused(probe((3, 0), 0), 5, "probe");
    assert_refused(query((0, 0), 0, &[(0, 2)]), 5, "query");
    assert_refused(
        raw_query((0, 0), 0, 0, [(0, 0), (0, 0), (0, 0), (0, 1)]),
        5,
        "pair",
    );
}

#[test]
fn a_drop_needs_the_pair_held() {
    assert_refused(drop(0, 3), 10, "a candidate");
    assert_refused(drop(0, 100), 10, "no candidate");
    let place = DESIGN_A_LENGTH + 12;
    let lines = lines_after_a(&[refer(0, 3), drop(0, 3), drop(0, 3)]);
    assert_eq!(lines[2], format!("2 refused 10 {place}"));
}

#[test]
fn a_refused_operation_changes_nothing() {
    let lines = lines_after_a(&[refer(0, 3), drop(0, 4), refer(0, 0), end(), drop(0, 3)]);
    assert_eq!(lines[4], "4 dropped 5");
}
