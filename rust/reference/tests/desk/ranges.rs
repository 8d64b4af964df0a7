//! Ranges of recording numbers (document 02, Req 10).

use crate::bytes::*;
use crate::lines::{lines, lines_lending};
use crate::random::Random;

const TOP: u32 = u32::MAX;

/// Recordings (number, subject) and subjects (number); recordings from 10 on can be
/// loaded, and subjects 1 to 9.
fn recordings(operations: &[Vec<u8>]) -> Vec<u8> {
    [
        table(2, 0),
        table(1, 0),
        constraint((0, 1), (1, 0)),
        filling((0, 0), 10, TOP),
        filling((1, 0), 1, 9),
        row(0, &[10, 1]),
        row(0, &[12, 2]),
        row(0, &[15, 3]),
        row_with_issues(0, &[(12, 1), (4, 0)]),
        row(0, &[TOP, 3]),
        row(1, &[1]),
        row(1, &[2]),
        row(1, &[3]),
        row(1, &[4]),
        end(),
        operations.concat(),
    ]
    .concat()
}

#[test]
fn ranges_that_touch_and_overlap() {
    let script = recordings(&[
        hold(0, 10, 11),
        hold(0, 13, 15),
        probe((0, 0), 12),
        hold(0, 12, 12),
        probe((0, 0), 12),
        probe((0, 0), 14),
        with_issue(1, &probe((0, 0), 12)),
        hold(0, 11, 14),
        hold(0, 9, 11),
        release(0, 10, 11),
        release(0, 10, 15),
        hold(0, 5, 4),
        hold(0, 0, 4),
        hold(2, 10, 11),
    ]);
    let expected = [
        "0 loaded 2 1",
        "1 loaded 2 1",
        "2 sent",
        "3 loaded 2 1",
        "4 ground 1 1",
        "5 ground 1 0",
        "6 sent",
        "7 held",
        "8 no candidate",
        "9 refused 10 427",
        "10 dropped 6",
        "11 refused 5 447",
        "12 refused 5 457",
        "13 refused 5 467",
    ];
    assert_eq!(lines(&script), expected);
}

#[test]
fn ranges_up_to_the_largest_number() {
    let script = recordings(&[
        hold(0, TOP, TOP),
        hold(0, TOP - 2, TOP - 2),
        hold(0, TOP - 1, TOP - 1),
        release(0, TOP - 2, TOP),
    ]);
    let expected = [
        "0 loaded 2 1",
        "1 loaded 0 0",
        "2 loaded 0 0",
        "3 dropped 2",
    ];
    assert_eq!(lines(&script), expected);
}

#[test]
fn values_beside_ranges() {
    let script = recordings(&[
        hold(0, 10, 20),
        refer(0, 12),
        refer(0, 12),
        drop(0, 15),
        release(0, 10, 20),
        probe((0, 0), 12),
        reason(1),
        hold(0, 10, 20),
        reason(2),
        reason(5),
        reason(1),
        drop(0, 12),
        reason(1),
    ]);
    let expected = [
        "0 loaded 6 1",
        "1 loaded 0 0",
        "2 held",
        "3 refused 10 370",
        "4 dropped 4",
        "5 ground 1 1",
        "6 row 1 by value 12 of filling 0",
        "7 loaded 4 1",
        "8 row 2 by range 10 to 20 of filling 0",
        "9 row 5 by constraint 0 from row 0 by range 10 to 20 of filling 0",
        "10 row 1 by value 12 of filling 0",
        "11 dropped 0",
        "12 row 1 by range 10 to 20 of filling 0",
    ];
    assert_eq!(lines(&script), expected);
}

/// One table of one column, with candidates 1 to 100 and a row (30).
fn one_column(operations: &[Vec<u8>]) -> Vec<u8> {
    let design = [table(1, 0), filling((0, 0), 1, 100), row(0, &[30]), end()];
    [design.concat(), operations.concat()].concat()
}

#[test]
fn eight_ranges_for_each_desk() {
    let single = |value| hold(0, value, value);
    let eight: Vec<u8> = (1..=8).flat_map(|half| single(2 * half)).collect();
    let script = one_column(&[
        eight,
        single(30),
        hold(0, 17, 30),
        single(3),
        single(50),
        single(40),
        desk(2),
        single(40),
    ]);
    let lines = lines(&script);
    for (number, line) in lines[..8].iter().enumerate() {
        assert_eq!(*line, format!("{number} loaded 0 0"));
    }
    let expected = [
        "8 refused 8 129",
        "9 loaded 1 0",
        "10 loaded 0 0",
        "11 loaded 0 0",
        "12 refused 8 169",
        "13 desk 2",
        "14 loaded 0 0",
    ];
    assert_eq!(lines[8..], expected);
}

/// At eight ranges, "no candidate" and "held" go before 8, and a range that joins all
/// of them is taken.
#[test]
fn a_full_desk() {
    let eight: Vec<u8> = (1..=8)
        .flat_map(|tens| hold(0, 10 * tens, 10 * tens + 1))
        .collect();
    let script = one_column(&[
        eight,
        hold(0, 100, 101),
        hold(0, 20, 21),
        hold(0, 21, 21),
        hold(0, 13, 13),
        hold(0, 1, 100),
        release(0, 10, 11),
        release(0, 1, 100),
    ]);
    let place = 49 + 11 * 10;
    let expected = [
        "8 no candidate",
        "9 held",
        "10 held",
        &format!("11 refused 8 {place}"),
        "12 loaded 0 0",
        &format!("13 refused 10 {}", place + 20),
        "14 dropped 1",
    ];
    assert_eq!(lines(&script)[8..], expected);
}

/// A range of another desk is another's: neither "held" nor 10, and the rows stay until
/// both have gone.
#[test]
fn ranges_of_two_desks() {
    let script = one_column(&[
        hold(0, 30, 40),
        desk(1),
        release(0, 30, 40),
        hold(0, 30, 35),
        query((0, 0), 33, &[]),
        desk(0),
        release(0, 30, 40),
        probe((0, 0), 40),
        probe((0, 0), 30),
        desk(1),
        release(0, 30, 35),
    ]);
    let expected = [
        "0 loaded 1 0",
        "1 desk 1",
        "2 refused 10 61",
        "3 loaded 0 0",
        "4 answer 0",
        "5 desk 0",
        "6 dropped 0",
        "7 sent",
        "8 ground 1 1",
        "9 desk 1",
        "10 dropped 1",
    ];
    assert_eq!(lines(&script), expected);
}

/// Ranges of two fillings don't join, though their numbers overlap, and a reason takes
/// the lowest filling, then values before ranges, then the lowest low and high.
#[test]
fn the_lowest_of_several_ranges() {
    let script = [
        table(2, 0),
        filling((0, 0), 1, 99),
        filling((0, 1), 1, 99),
        row(0, &[50, 50]),
        end(),
        hold(1, 40, 60),
        reason(0),
        hold(0, 30, 70),
        reason(0),
        desk(1),
        hold(0, 30, 60),
        reason(0),
        desk(2),
        hold(0, 40, 50),
        reason(0),
        refer(0, 50),
        reason(0),
    ]
    .concat();
    let by = |number, low, high| format!("{number} row 0 by range {low} to {high} of filling");
    let expected = [
        "0 loaded 1 0".to_string(),
        by(1, 40, 60) + " 1",
        "2 loaded 0 0".into(),
        by(3, 30, 70) + " 0",
        "4 desk 1".into(),
        "5 loaded 0 0".into(),
        by(6, 30, 60) + " 0",
        "7 desk 2".into(),
        "8 loaded 0 0".into(),
        by(9, 30, 60) + " 0",
        "10 loaded 0 0".into(),
        "11 row 0 by value 50 of filling 0".into(),
    ];
    assert_eq!(lines(&script), expected);
}

/// A query on a value of a range has a ground and refers nothing; with 11 there is
/// nothing to undo.
#[test]
fn queries_on_values_of_a_range() {
    let script = script_a(&[
        hold(0, 2, 5),
        query((0, 1), 4, &[]),
        drop(0, 4),
        query((0, 1), 3, &[(0, 0), (1, 1)]),
        total((0, 1), 5, &[], (0, 0)),
        opener((0, 1), 5, 0),
        opener((0, 1), 6, 0),
        with_issue(1, &query((0, 1), 4, &[])),
        release(0, 2, 5),
    ]);
    let place = DESIGN_A_LENGTH + 10 + 16;
    let expected = [
        "0 loaded 8 2",
        "1 answer 1",
        "2",
        &format!("2 refused 10 {place}"),
        &format!("3 refused 11 {}", place + 6),
        "4 total 0",
        "5 open",
        "6 0 6 0",
        "7 answer 0",
        "8 dropped 8",
    ];
    assert_eq!(lines_lending(&script, 5), expected);
}

#[test]
fn wrong_operands() {
    for operation in [hold, release] {
        for (filling, low, high) in [(1, 1, 2), (255, 0, 0), (0, 0, 5), (0, 0, 0), (0, 6, 5)] {
            let script = one_column(&[operation(filling, low, high), probe((0, 0), 30)]);
            let lines = lines(&script);
            assert_eq!(
                lines,
                ["0 refused 5 49", "1 sent"],
                "{filling} {low} {high}"
            );
        }
    }
}

/// After any holds and drops of ranges, each value of 1 to 30 has a ground exactly if it
/// was held last, by a plain set of values; and every range that is left can be dropped
/// once, as its values stand side by side.
#[test]
fn generated_ranges() {
    let mut dropped = 0;
    for number in 0..300 {
        let mut random = Random::new(number);
        let mut held = [false; 32];
        let mut operations = Vec::new();
        for _ in 0..random.within(1, 12) {
            let low = random.within(1, 30);
            let high = (low + random.below(6)).min(30);
            let runs = runs(&held);
            if random.below(3) == 0 && runs.contains(&(low, high)) {
                held[low..=high].fill(false);
                operations.push(release(0, low as u32, high as u32));
                continue;
            }
            let mut after = held;
            after[low..=high].fill(true);
            operations.push(hold(0, low as u32, high as u32));
            if self::runs(&after).len() <= 8 {
                held = after;
            }
        }
        let count = operations.len();
        operations.extend((1..=30).map(|value| probe((0, 0), value)));
        operations.extend(
            runs(&held)
                .iter()
                .map(|r| release(0, r.0 as u32, r.1 as u32)),
        );
        operations.push(probe((0, 0), 30));
        let lines = lines(&one_column(&operations));
        for value in 1..=30 {
            let line = &lines[count + value - 1];
            assert_eq!(line.contains(" ground 1 "), held[value], "{line}");
        }
        for line in &lines[count + 30..lines.len() - 1] {
            assert!(line.contains(" dropped "), "{line}");
            dropped += 1;
        }
        assert!(lines.last().is_some_and(|line| line.ends_with(" sent")));
    }
    assert!(dropped > 400, "{dropped}");
}

/// The runs of held values, each from its first to its last.
fn runs(held: &[bool; 32]) -> Vec<(usize, usize)> {
    let mut runs: Vec<(usize, usize)> = Vec::new();
    for value in (1..=30).filter(|&value| held[value]) {
        match runs.last_mut() {
            Some(run) if run.1 + 1 == value => run.1 = value,
            _ => runs.push((value, value)),
        }
    }
    runs
}
