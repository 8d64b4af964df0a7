//! The largest counts, each at its limit and one past it.

use crate::bytes::*;
use reference::report;

fn repeated(count: u8, command: impl Fn(u8) -> Vec<u8>) -> Vec<u8> {
    (0..count).flat_map(command).collect()
}

#[test]
fn tables() {
    let script = |count| [repeated(count, |_| table(1, 0)), end()].concat();
    assert_eq!(report(&script(8)), "design 8 0 0 0\n");
    assert_eq!(report(&script(9)), "refused 4 24\n");
}

#[test]
fn constraints() {
    let different = |i: u8| constraint((0, i / 4), (0, i % 4));
    let script = |extra| [table(4, 0), repeated(16, different), extra, end()].concat();
    assert_eq!(report(&script(vec![])), "design 1 16 0 0\n");
    let seventeenth = constraint((0, 0), (0, 0));
    assert_eq!(report(&script(seventeenth)), "refused 4 83\n");
}

#[test]
fn fillings() {
    let different = |i| filling((0, i), 1, 9);
    let script = |extra| [table(8, 0), repeated(8, different), extra, end()].concat();
    assert_eq!(report(&script(vec![])), "design 1 0 8 0\n");
    let ninth = filling((0, 0), 1, 9);
    assert_eq!(report(&script(ninth)), "refused 4 91\n");
}

#[test]
fn rows() {
    let script = |rows| [table(1, 0), row(0, &[1]).repeat(rows), end()].concat();
    assert_eq!(report(&script(512)), "design 1 0 0 512\n");
    let place = 3 + 512 * 34;
    assert_eq!(report(&script(513)), format!("refused 4 {place}\n"));
}

#[test]
fn a_chain_of_all_rows_takes_a_round_for_each() {
    let links: Vec<u8> = (1..=512).flat_map(|i| row(0, &[i, i + 1])).collect();
    let script = [
        table(2, 0b01),
        constraint((0, 1), (0, 0)),
        filling((0, 0), 1, 1),
        links,
        end(),
        refer(0, 1),
        drop(0, 1),
    ]
    .concat();
    assert_eq!(
        report(&script),
        "design 1 1 1 512\n0 loaded 512 511\n1 dropped 512\n"
    );
}

#[test]
fn script_bytes() {
    let head = [table(1, 0), end()].concat();
    let script = |length: usize| [head.clone(), vec![0x05; length - head.len()]].concat();
    let longest = report(&script(65_536));
    assert!(longest.starts_with("design 1 0 0 0\n0 refused 3 4\n"));
    assert!(longest.ends_with("\n65531 refused 3 65535\n"));
    assert_eq!(report(&script(65_537)), "refused 4 0\n");
}

#[test]
fn script_length_is_looked_at_before_any_command() {
    assert_eq!(report(&[0xff; 65_536]), "refused 2 0\n");
    assert_eq!(report(&[0xff; 65_537]), "refused 4 0\n");
}

#[test]
fn held_values() {
    let first: Vec<u8> = (1..=16).flat_map(|value| refer(0, value)).collect();
    let head = [table(1, 0), filling((0, 0), 1, 99), end(), first].concat();
    let after = [
        refer(0, 17),
        refer(0, 16),
        refer(0, 100),
        drop(0, 1),
        refer(0, 17),
        refer(0, 1),
    ];
    let place = head.len();
    let expected = format!(
        "16 refused 8 {place}\n17 held\n18 no candidate\n19 dropped 0\n20 loaded 0 0\n21 refused 8 {}\n",
        place + 5 * 6
    );
    let report = report(&[head, after.concat()].concat());
    assert!(report.contains("\n15 loaded 0 0\n16 refused"));
    assert!(report.ends_with(&expected), "{report}");
}

#[test]
fn one_candidate() {
    let script = [
        table(1, 0),
        filling((0, 0), 5, 5),
        end(),
        refer(0, 4),
        refer(0, 5),
        refer(0, 6),
    ]
    .concat();
    assert_eq!(
        report(&script),
        "design 1 0 1 0\n0 no candidate\n1 loaded 0 0\n2 no candidate\n"
    );
}

#[test]
fn the_largest_value() {
    let script = [
        table(1, 0b1),
        filling((0, 0), u32::MAX, u32::MAX),
        row(0, &[u32::MAX]),
        end(),
        refer(0, u32::MAX),
        query((0, 0), u32::MAX, &[]),
        refer(0, u32::MAX - 1),
    ]
    .concat();
    assert_eq!(
        report(&script),
        "design 1 0 1 1\n0 loaded 1 0\n1 answer 1\n0\n2 no candidate\n"
    );
}
