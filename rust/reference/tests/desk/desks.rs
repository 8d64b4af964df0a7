//! Desks (document 02, Req 07): each has a share of the held values, and what is
//! cached is cached for all of them together.

use crate::bytes::*;
use crate::lines::{lines, lines_lending};

#[test]
fn two_desks_hold_the_same_value() {
    let script = script_a(&[
        refer(0, 3),
        desk(1),
        refer(0, 3),
        drop(0, 4),
        desk(0),
        drop(0, 3),
        probe((0, 1), 3),
        desk(1),
        drop(0, 3),
        desk(4),
    ]);
    let expected = [
        "0 loaded 5 2",
        "1 desk 1",
        "2 loaded 0 0",
        "3 refused 10 317",
        "4 desk 0",
        "5 dropped 0",
        "6 ground 1 2",
        "7 desk 1",
        "8 dropped 5",
        "9 refused 5 346",
    ];
    assert_eq!(lines(&script), expected);
}

/// One table of one column, with candidates 1 to 100 and a row.
fn one_column(operations: &[Vec<u8>]) -> Vec<u8> {
    let design = [table(1, 0), filling((0, 0), 1, 100), row(0, &[1]), end()];
    [design.concat(), operations.concat()].concat()
}

fn loads(values: std::ops::RangeInclusive<u32>) -> Vec<u8> {
    values.flat_map(|value| refer(0, value)).collect()
}

#[test]
fn a_full_desk_and_an_empty_one() {
    let script = one_column(&[
        loads(2..=17),
        refer(0, 1),
        refer(0, 2),
        refer(0, 101),
        query((0, 0), 1, &[]),
        desk(3),
        refer(0, 1),
        query((0, 0), 1, &[]),
    ]);
    let lines = lines(&script);
    for (number, line) in lines[..16].iter().enumerate() {
        assert_eq!(*line, format!("{number} loaded 0 0"));
    }
    let expected = [
        "16 refused 8 145",
        "17 held",
        "18 no candidate",
        "19 sent",
        "20 desk 3",
        "21 loaded 1 0",
        "22 answer 1",
        "0",
    ];
    assert_eq!(lines[16..], expected);
}

#[test]
fn a_loop_is_kept_by_any_desk() {
    let script = script_b(&[
        desk(2),
        refer(0, 1),
        desk(0),
        drop(0, 1),
        refer(0, 1),
        refer(0, 1),
        desk(2),
        drop(0, 1),
        desk(0),
        drop(0, 1),
    ]);
    let expected = [
        "0 desk 2",
        "1 loaded 3 2",
        "2 desk 0",
        "3 refused 10 140",
        "4 loaded 0 0",
        "5 held",
        "6 desk 2",
        "7 dropped 0",
        "8 desk 0",
        "9 dropped 3",
    ];
    assert_eq!(lines(&script), expected);
}

/// 64 values by four desks, and each at its own limit.
#[test]
fn four_desks_hold_16_each() {
    let fill = |number: u8| {
        let first = 2 + 16 * u32::from(number);
        [desk(number), loads(first..=first + 15), refer(0, 1)].concat()
    };
    let script = one_column(&[
        [0, 1, 2, 3].map(fill).concat(),
        drop(0, 65),
        refer(0, 1),
        desk(1),
        refer(0, 1),
        query((0, 0), 1, &[]),
        query((0, 0), 90, &[]),
    ]);
    let lines = lines(&script);
    for (number, line) in lines[..72].iter().enumerate() {
        let expected = match number % 18 {
            0 => format!("desk {}", number / 18),
            17 => format!("refused 8 {}", 49 + number / 18 * 104 + 98),
            _ => "loaded 0 0".into(),
        };
        assert_eq!(*line, format!("{number} {expected}"));
    }
    let refused = format!("75 refused 8 {}", 49 + 4 * 104 + 6 + 6 + 2);
    let expected = [
        "72 dropped 0",
        "73 loaded 1 0",
        "74 desk 1",
        &refused,
        "76 answer 1",
        "0",
        "77 sent",
    ];
    assert_eq!(lines[72..], expected);
}

/// A query with another desk's ground is answered and refers nothing.
#[test]
fn a_query_by_the_ground_of_another_desk() {
    let script = script_a(&[
        desk(2),
        refer(0, 3),
        desk(1),
        query((0, 1), 3, &[]),
        drop(0, 3),
        total((0, 1), 4, &[], (0, 0)),
        desk(2),
        drop(0, 4),
        drop(0, 3),
        desk(1),
        drop(0, 4),
    ]);
    let place = DESIGN_A_LENGTH + 2 + 6 + 2 + 16;
    let not_held = format!("4 refused 10 {place}");
    let not_held_either = format!("7 refused 10 {}", place + 6 + 18 + 2);
    let expected = [
        "0 desk 2",
        "1 loaded 5 2",
        "2 desk 1",
        "3 answer 2",
        "0",
        "1",
        &not_held,
        "5 total 9",
        "6 desk 2",
        &not_held_either,
        "8 dropped 5",
        "9 desk 1",
        "10 dropped 3",
    ];
    assert_eq!(lines(&script), expected);
}

/// With 11 the reference of the named desk is undone, and another's stays.
#[test]
fn an_undone_reference_is_the_named_desks() {
    let asked = query((0, 1), 3, &[(0, 0), (1, 1)]);
    let script = script_a(&[
        asked.clone(),
        desk(1),
        refer(0, 3),
        asked,
        desk(0),
        drop(0, 3),
        desk(1),
        drop(0, 3),
    ]);
    let place = DESIGN_A_LENGTH;
    let expected = [
        format!("0 refused 11 {place}"),
        "1 desk 1".into(),
        "2 loaded 5 2".into(),
        format!("3 refused 11 {}", place + 16 + 2 + 6),
        "4 desk 0".into(),
        format!("5 refused 10 {}", place + 16 + 2 + 6 + 16 + 2),
        "6 desk 1".into(),
        "7 dropped 5".into(),
    ];
    assert_eq!(lines_lending(&script, 5), expected);
}

/// A refused desk isn't named: the one before stays.
#[test]
fn desks_above_3() {
    for number in [4, 5, 64, 255] {
        let script = script_a(&[desk(2), refer(0, 3), desk(number), drop(0, 3)]);
        let refused = format!("2 refused 5 {}", DESIGN_A_LENGTH + 8);
        let expected = ["0 desk 2", "1 loaded 5 2", &refused, "3 dropped 5"];
        assert_eq!(lines(&script), expected, "{number}");
    }
}

/// The issue of a value and the desk are two things.
#[test]
fn issues_and_desks() {
    let script = one_column(&[
        with_issue(1, &refer(0, 1)),
        desk(1),
        refer(0, 1),
        with_issue(1, &drop(0, 1)),
        with_issue(1, &refer(0, 1)),
        desk(0),
        drop(0, 1),
        with_issue(1, &drop(0, 1)),
        with_issue(1, &probe((0, 0), 1)),
    ]);
    let place = 49 + 7 + 2 + 6;
    let expected = [
        "0 loaded 0 0",
        "1 desk 1",
        "2 loaded 1 0",
        &format!("3 refused 10 {place}"),
        "4 loaded 0 0",
        "5 desk 0",
        &format!("6 refused 10 {}", place + 7 + 7 + 2),
        "7 dropped 0",
        "8 ground 1 0",
    ];
    assert_eq!(lines(&script), expected);
}
