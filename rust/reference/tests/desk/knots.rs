//! The report on the smallest knot (document 02, Req 11): the fewest constraints
//! which, kept without the others, are still uneven.

use crate::bytes::*;
use crate::even::{linked, ring, Links};
use crate::lines::lines;
use crate::random::Random;

/// What the two reports say about a design: on its knot, and on its evenness.
fn reports(columns: &[u8], links: Links) -> [String; 2] {
    let script = [linked(columns, links), end(), knot(), even()].concat();
    let lines = lines(&script);
    let [knot, evenness] = &lines[..] else {
        panic!("{lines:?}");
    };
    let answer = |line: &str| line.split_once(' ').expect("a number").1.to_string();
    [answer(knot), answer(evenness)]
}

#[test]
fn one_constraint_by_itself() {
    assert_eq!(reports(&[2], &[((0, 1), (0, 0))]), ["knot 0", "uneven 0 0"]);
}

#[test]
fn there_and_back_at_one_column() {
    let links = [((0, 1), (1, 0)), ((1, 0), (0, 1))];
    assert_eq!(reports(&[2, 1], &links), ["even", "even"]);
    assert_eq!(reports(&[1], &[]), ["even", "even"]);
}

/// The lowest pair isn't in the first of the knots.
#[test]
fn two_rings_of_three() {
    let links = [
        ((5, 0), (3, 0)),
        ((0, 0), (1, 0)),
        ((1, 1), (2, 0)),
        ((2, 0), (0, 0)),
        ((3, 0), (4, 0)),
        ((4, 1), (5, 0)),
    ];
    assert_eq!(reports(&[2; 6], &links), ["knot 0 4 5", "uneven 1 2"]);
}

/// Two ways back of the same length: the one with the lowest first number, though
/// its next step is the higher one.
#[test]
fn two_ways_back() {
    let links = [
        ((4, 0), (0, 0)),
        ((2, 0), (3, 0)),
        ((5, 0), (5, 0)),
        ((2, 0), (4, 0)),
        ((3, 0), (0, 0)),
        ((0, 0), (1, 0)),
        ((1, 1), (2, 0)),
    ];
    let columns = [1, 2, 1, 1, 1, 1];
    assert_eq!(reports(&columns, &links), ["knot 0 3 5 6", "uneven 5 6"]);
}

/// Two rings that share a table, each at its own column of it.
#[test]
fn two_rings_at_one_table() {
    let links = [
        ((0, 0), (1, 0)),
        ((1, 0), (0, 0)),
        ((2, 0), (1, 1)),
        ((1, 1), (2, 0)),
    ];
    assert_eq!(reports(&[1, 2, 1], &links), ["knot 0 1 2 3", "uneven 0 3"]);
    let links = [((0, 0), (0, 0)), ((0, 1), (0, 1))];
    assert_eq!(reports(&[2], &links), ["knot 0 1", "uneven 0 1"]);
}

/// Nothing else makes it uneven, so that all constraints of the ring are in it.
#[test]
fn a_knot_through_all_tables() {
    let mut links = ring(8);
    links[3].1 = (4, 1);
    let all = "knot 0 1 2 3 4 5 6 7";
    assert_eq!(reports(&[2; 8], &links), [all, "uneven 3 4"]);
    links.push(((7, 1), (7, 1)));
    assert_eq!(reports(&[2; 8], &links)[0], all, "a ring beside it");
    links.push(((6, 1), (6, 0)));
    assert_eq!(reports(&[2; 8], &links)[0], "knot 9", "a smaller one");
}

#[test]
fn the_state_and_the_rows_do_not_matter() {
    let script = [
        table(2, 0),
        constraint((0, 1), (0, 0)),
        filling((0, 0), 1, 9),
        row(0, &[1, 2]),
        row(0, &[2, 1]),
        end(),
        knot(),
        refer(0, 1),
        knot(),
        drop(0, 1),
        knot(),
    ]
    .concat();
    let expected = [
        "0 knot 0",
        "1 loaded 2 1",
        "2 knot 0",
        "3 dropped 2",
        "4 knot 0",
    ];
    assert_eq!(lines(&script), expected);
}

/// No set of constraints with fewer members is uneven, none of the same size whose
/// numbers come first, and taking any one out leaves an even set: by the report on
/// evenness, for all sets of small designs.
#[test]
fn knots_of_generated_designs() {
    let mut sizes = [0; 8];
    for number in 0..1_000 {
        let mut random = Random::new(number);
        let tables = random.within(1, 4);
        let mut links: Vec<(Column, Column)> = Vec::new();
        for _ in 0..random.within(1, 7) {
            let mut column = || (random.below(tables) as u8, random.below(2) as u8);
            let link = (column(), column());
            if !links.contains(&link) {
                links.push(link);
            }
        }
        let columns = vec![2; tables];
        let is_uneven = |set: &[usize]| {
            let kept: Vec<_> = set.iter().map(|&i| links[i]).collect();
            reports(&columns, &kept)[1] != "even"
        };
        let mut sets: Vec<Vec<usize>> = (0..1 << links.len())
            .map(|bits: usize| (0..links.len()).filter(|i| bits >> i & 1 == 1).collect())
            .collect();
        sets.sort_by_key(|set| (set.len(), set.clone()));
        let first = sets.iter().find(|set| is_uneven(set));
        let expected = first.map_or("even".into(), |set| {
            let numbers: Vec<String> = set.iter().map(usize::to_string).collect();
            format!("knot {}", numbers.join(" "))
        });
        assert_eq!(reports(&columns, &links)[0], expected, "{links:?}");
        let Some(first) = first else { continue };
        sizes[first.len()] += 1;
        for out in first {
            let rest: Vec<usize> = first.iter().copied().filter(|i| i != out).collect();
            assert!(!is_uneven(&rest), "{links:?}");
        }
    }
    assert!(sizes[1..=3].iter().all(|&count| count > 10), "{sizes:?}");
}
