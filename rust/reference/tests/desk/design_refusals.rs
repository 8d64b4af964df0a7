//! Refused designs: causes 1 to 6, their places and the order among them.

use crate::bytes::*;
use reference::report;

fn assert_refused(script: &[u8], cause: u8, place: usize, what: &str) {
    assert_eq!(
        report(script),
        format!("refused {cause} {place}\n"),
        "{what}"
    );
}

/// Checks that `faulty` is refused after `before`, at the place where it begins.
fn assert_refused_after(before: &[Vec<u8>], faulty: Vec<u8>, cause: u8, what: &str) {
    let before = before.concat();
    let script = [&before[..], &faulty, &end()].concat();
    assert_refused(&script, cause, before.len(), what);
}

/// Checks that `last` is accepted after `before`.
fn assert_accepted_after(before: &[Vec<u8>], last: Vec<u8>, what: &str) {
    let script = [before.concat(), last, end()].concat();
    assert!(report(&script).starts_with("design "), "{what}");
}

#[test]
fn an_empty_script_has_no_end() {
    assert_refused(&[], 1, 0, "empty script");
}

#[test]
fn a_design_without_end_is_refused_at_the_script_length() {
    assert_refused(&table(1, 0), 1, 3, "a table and nothing else");
}

#[test]
fn end_alone_is_a_design() {
    assert_eq!(report(&end()), "design 0 0 0 0\n");
}

#[test]
fn a_command_cut_short_is_refused_where_it_begins() {
    for (name, command) in one_of_each() {
        for length in 1..command.len() {
            let script = [&table(1, 0), &command[..length]].concat();
            assert_refused(&script, 1, 3, &format!("{length} bytes of {name}"));
        }
    }
}

#[test]
fn unknown_bytes_are_refused_even_at_the_end_of_the_script() {
    let known: Vec<u8> = one_of_each()
        .iter()
        .map(|(_, command)| command[0])
        .collect();
    for byte in (0..=255).filter(|byte| !known.contains(byte)) {
        let script = [table(1, 0), vec![byte]].concat();
        assert_refused(&script, 2, 3, &format!("byte {byte}"));
    }
}

/// Rows with and without issues are of one kind.
#[test]
fn design_commands_come_in_their_order() {
    let kind = |name: &str| name.split(' ').next().map(String::from);
    let mut design = design_commands();
    design.pop();
    for (later, (name, command)) in design.iter().enumerate().skip(1) {
        let before = [table(1, 0), command.clone()];
        for (earlier_name, earlier) in &design[..later] {
            let what = format!("{earlier_name} after {name}");
            if kind(earlier_name) == kind(name) {
                assert_accepted_after(&before, earlier.clone(), &what);
            } else {
                assert_refused_after(&before, earlier.clone(), 3, &what);
            }
        }
    }
}

#[test]
fn operations_before_end_are_out_of_order() {
    for (name, operation) in operations() {
        assert_refused_after(&[table(1, 0)], operation, 3, name);
    }
}

#[test]
fn order_is_looked_at_before_counts_and_operands() {
    let mut full = vec![table(1, 0); 8];
    full.push(constraint((0, 0), (0, 0)));
    assert_refused_after(&full, table(0, 0), 3, "a ninth, wrong table too late");
    assert_refused_after(&[], refer(9, 0), 3, "a wrong operation too early");
}

#[test]
fn counts_are_looked_at_before_operands() {
    let tables = vec![table(1, 0); 8];
    assert_refused_after(&tables, table(0, 0), 4, "a ninth table without columns");
}

#[test]
fn wrong_operands_of_a_table() {
    assert_refused_after(&[], table(0, 0), 5, "no columns");
    assert_refused_after(&[], table(9, 0), 5, "nine columns");
    assert_refused_after(&[], table(2, 0b100), 5, "a unique column that isn't there");
    assert_accepted_after(&[], table(8, 0xff), "eight unique columns");
}

#[test]
fn wrong_operands_of_a_constraint() {
    let before = [table(2, 0), table(1, 0)];
    let wrong = [
        ((2, 0), (0, 0)),
        ((0, 2), (0, 0)),
        ((0, 0), (2, 0)),
        ((0, 0), (1, 1)),
    ];
    for (source, target) in wrong {
        let what = format!("{source:?} to {target:?}");
        assert_refused_after(&before, constraint(source, target), 5, &what);
    }
    let twice = constraint((0, 1), (1, 0));
    let before = [&before[..], std::slice::from_ref(&twice)].concat();
    assert_refused_after(&before, twice, 5, "the same constraint twice");
    assert_accepted_after(&before, constraint((1, 0), (0, 1)), "its reverse");
    assert_accepted_after(&before, constraint((0, 0), (0, 0)), "a column to itself");
}

#[test]
fn wrong_operands_of_a_filling() {
    let before = [table(2, 0)];
    assert_refused_after(&before, filling((1, 0), 1, 2), 5, "no such table");
    assert_refused_after(&before, filling((0, 2), 1, 2), 5, "no such column");
    assert_refused_after(&before, filling((0, 0), 0, 2), 5, "low 0");
    assert_refused_after(&before, filling((0, 0), 3, 2), 5, "low above high");
    assert_accepted_after(&before, filling((0, 0), 2, 2), "low equal to high");
    let before = [table(2, 0), filling((0, 0), 1, 2)];
    assert_refused_after(&before, filling((0, 0), 5, 6), 5, "a filling column twice");
    assert_accepted_after(&before, filling((0, 1), 1, 2), "another filling column");
}

#[test]
fn wrong_operands_of_a_row() {
    let before = [table(2, 0)];
    assert_refused_after(&before, row(1, &[]), 5, "no such table");
    for cell in 2..8 {
        let mut cells = [0; 8];
        cells[cell] = 1;
        assert_refused_after(&before, row(0, &cells), 5, &format!("cell {cell} used"));
    }
}

#[test]
fn a_unique_column_takes_a_value_once() {
    let before = [table(2, 0b10), table(2, 0b10), row(0, &[1, 5])];
    assert_refused_after(&before, row(0, &[2, 5]), 6, "a value twice");
    assert_accepted_after(&before, row(0, &[1, 6]), "twice in the other column");
    assert_accepted_after(&before, row(1, &[1, 5]), "once in another table");
    let before = [&before[..], &[row(0, &[1, 0])]].concat();
    assert_accepted_after(&before, row(0, &[1, 0]), "blank twice");
}

#[test]
fn operands_are_looked_at_before_uniqueness() {
    let before = [table(1, 0b1), row(0, &[5])];
    assert_refused_after(&before, row(0, &[5, 1]), 5, "both wrong");
}
