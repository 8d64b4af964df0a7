//! Queries: which lists, in which order, and how many words are too many.

use crate::bytes::*;
use reference::report;

/// The report after the head.
fn operations(script: &[u8]) -> String {
    let report = report(script);
    let (_, rest) = report.split_once('\n').expect("a head");
    rest.to_string()
}

/// A star: table p has `sizes[p]` rows of the one value 1, constraint p - 1
/// leads from table 0 to table p, and 1 is loaded in table 0.
fn star(sizes: &[usize]) -> Vec<u8> {
    let tables = 0..sizes.len() as u8;
    let mut script = table(1, 0).repeat(sizes.len());
    script.extend(
        tables
            .clone()
            .skip(1)
            .flat_map(|t| constraint((0, 0), (t, 0))),
    );
    script.extend(filling((0, 0), 1, 1));
    script.extend(tables.flat_map(|t| row(t, &[1]).repeat(sizes[usize::from(t)])));
    script.extend([end(), refer(0, 1)].concat());
    script
}

/// The query over a whole [`star`].
fn star_query(sizes: &[usize]) -> Vec<u8> {
    let joins: Vec<(u8, u8)> = (0..sizes.len() as u8 - 1).map(|c| (0, c)).collect();
    query((0, 0), 1, &joins)
}

fn star_answer(sizes: &[usize]) -> String {
    let report = report(&[star(sizes), star_query(sizes)].concat());
    let line = report.lines().find(|line| line.starts_with("1 "));
    line.expect("the query's line")[2..].to_string()
}

#[test]
fn lists_rise_position_by_position() {
    let sizes = [2, 2, 2];
    let script = [star(&sizes), star_query(&sizes)].concat();
    let expected = "\
0 loaded 6 1
1 answer 8
0 2 4
0 2 5
0 3 4
0 3 5
1 2 4
1 2 5
1 3 4
1 3 5
";
    assert_eq!(operations(&script), expected);
}

#[test]
fn answers_up_to_4096_words_are_given() {
    let cases: [(&[usize], usize); 5] = [
        (&[512], 512),
        (&[64, 32], 2_048),
        (&[13, 15, 7], 1_365),
        (&[2, 8, 8, 8], 1_024),
        (&[3, 3, 7, 13, 1], 819),
    ];
    for (sizes, lists) in cases {
        assert_eq!(star_answer(sizes), format!("answer {lists}"), "{sizes:?}");
    }
}

/// The first four are the least numbers of lists above 4,096 words that 512
/// rows can have.
#[test]
fn longer_answers_are_refused() {
    let cases: [&[usize]; 5] = [
        &[50, 41],
        &[8, 9, 19],
        &[5, 5, 41, 1],
        &[2, 2, 5, 41, 1],
        &[100, 100, 100, 100, 100],
    ];
    for sizes in cases {
        let place = star(sizes).len();
        let refused = format!("refused 11 {place}");
        assert_eq!(star_answer(sizes), refused, "{sizes:?}");
    }
}

#[test]
fn a_refused_query_leaves_the_next_one_alone() {
    let sizes = [50, 41];
    let script = [star(&sizes), star_query(&sizes), query((1, 0), 1, &[])].concat();
    let place = star(&sizes).len();
    let head = format!("0 loaded 91 1\n1 refused 11 {place}\n2 answer 41\n50\n51\n");
    assert!(operations(&script).starts_with(&head));
}

#[test]
fn a_query_that_is_sent_is_sent_however_many_lists_it_has() {
    let script = [
        table(1, 0),
        table(1, 0),
        constraint((0, 0), (1, 0)),
        filling((0, 0), 2, 9),
        row(0, &[1]).repeat(50),
        row(1, &[1]).repeat(41),
        end(),
        query((0, 0), 1, &[(0, 0)]),
    ]
    .concat();
    assert_eq!(operations(&script), "0 sent\n");
}

#[test]
fn joins_follow_the_position_they_name() {
    let script = [
        table(2, 0b01),
        table(2, 0b01),
        constraint((0, 0), (1, 1)),
        constraint((1, 0), (1, 1)),
        constraint((0, 1), (0, 0)),
        filling((0, 0), 1, 9),
        row(0, &[1, 2]),
        row(0, &[2, 0]),
        row(1, &[5, 1]),
        row(1, &[6, 1]),
        row(1, &[7, 6]),
        end(),
        refer(0, 1),
        query((0, 0), 1, &[(0, 0), (1, 1), (0, 2), (0, 0)]),
    ]
    .concat();
    let expected = "\
0 loaded 5 2
1 answer 2
0 3 4 1 2
0 3 4 1 3
";
    assert_eq!(operations(&script), expected);
}

#[test]
fn a_join_from_a_blank_fits_nothing() {
    let script = [
        table(2, 0),
        constraint((0, 1), (0, 1)),
        filling((0, 0), 1, 9),
        row(0, &[1, 0]),
        row(0, &[1, 4]),
        end(),
        refer(0, 1),
        query((0, 0), 1, &[]),
        query((0, 0), 1, &[(0, 0)]),
    ]
    .concat();
    let expected = "0 loaded 2 0\n1 answer 2\n0\n1\n2 answer 1\n1 1\n";
    assert_eq!(operations(&script), expected);
}

#[test]
fn dead_ends_take_no_time() {
    let script = [
        table(2, 0),
        constraint((0, 0), (0, 0)),
        constraint((0, 1), (0, 0)),
        filling((0, 0), 1, 1),
        row(0, &[1, 2]).repeat(512),
        end(),
        refer(0, 1),
        query((0, 0), 1, &[(0, 0), (1, 0), (2, 0), (3, 1)]),
        query((0, 0), 1, &[(0, 0), (1, 0), (2, 0), (3, 0)]),
    ]
    .concat();
    let place = script.len() - 16;
    let expected = format!("0 loaded 512 0\n1 answer 0\n2 refused 11 {place}\n");
    assert_eq!(operations(&script), expected);
}
