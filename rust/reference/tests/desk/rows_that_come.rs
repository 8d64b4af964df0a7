//! Rows that come and go (document 02, Req 12).

use crate::bytes::*;
use crate::lines::lines;
use crate::random::Random;

#[test]
fn rows_of_case_a() {
    let script = script_a(&[
        refer(0, 3),
        put(8, 1, &[22, 8]),
        put(9, 2, &[22, 1]),
        take(3),
        reason(5),
        take(3),
        put(3, 0, &[10, 3]),
        put(10, 0, &[7, 3]),
        put(9, 2, &[22, 1]),
        put(512, 2, &[1, 1]),
        put(11, 2, &[1, 2, 3]),
        put(11, 3, &[1]),
        take(0),
        query((0, 1), 3, &[]),
    ]);
    let expected = [
        "0 loaded 5 2",
        "1 rows 1 0",
        "2 rows 1 0",
        "3 rows 0 3",
        "4 absent",
        "5 refused 5 403",
        "6 rows 1 0",
        "7 refused 6 450",
        "8 refused 5 494",
        "9 refused 5 538",
        "10 refused 5 582",
        "11 refused 5 626",
        "12 rows 0 1",
        "13 answer 2",
        "1",
        "3",
    ];
    assert_eq!(lines(&script), expected);
}

#[test]
fn rows_of_case_b() {
    let script = script_b(&[
        refer(0, 1),
        take(0),
        put(0, 0, &[0, 5]),
        put(3, 0, &[1, 0]),
        put(4, 0, &[1, 5]),
        take(511),
        put_with_issues(5, 0, &[(1, 0), (5, 9)]),
        put_with_issues(6, 0, &[(0, 1), (5, 0)]),
    ]);
    let expected = [
        "0 loaded 3 2",
        "1 rows 0 3",
        "2 rows 0 0",
        "3 rows 1 0",
        "4 rows 4 0",
        "5 refused 5 271",
        "6 rows 1 0",
        "7 refused 5 318",
    ];
    assert_eq!(lines(&script), expected);
}

#[test]
fn a_unique_column_and_a_range() {
    let script = [
        table(2, 0b01),
        filling((0, 1), 1, 9),
        end(),
        hold(0, 1, 9),
        put(511, 0, &[5, 3]),
        put_with_issues(0, 0, &[(5, 1), (3, 0)]),
        put_with_issues(1, 0, &[(5, 1), (4, 0)]),
        take(511),
        put_with_issues(1, 0, &[(5, 0), (4, 1)]),
        put(2, 0, &[6, 0]),
    ]
    .concat();
    let expected = [
        "0 loaded 0 0",
        "1 rows 1 0",
        "2 rows 1 0",
        "3 refused 6 113",
        "4 rows 0 1",
        "5 rows 0 0",
        "6 rows 0 0",
    ];
    assert_eq!(lines(&script), expected);
}

#[test]
fn reasons_and_openers_go_by_the_rows_that_are_there() {
    let script = script_a(&[
        refer(0, 3),
        take(5),
        reason(5),
        reason(6),
        take(0),
        opener((1, 1), 7, 0),
        put(5, 0, &[7, 4]),
        opener((1, 1), 7, 0),
        probe((1, 1), 7),
    ]);
    let expected = [
        "0 loaded 5 2",
        "1 rows 0 1",
        "2 refused 5 312",
        "3 row 6 by constraint 1 from row 3 by constraint 0 from row 0 by value 3 of filling 0",
        "4 rows 0 3",
        "5 none",
        "6 rows 0 0",
        "7 0 4 0",
        "8 sent",
    ];
    assert_eq!(lines(&script), expected);
}

/// All that ends at table 1 ends at its column 1, so that every value cached there has
/// a ground of 1 or 2 (document 02, Req 13); column 0 isn't such a one.
#[test]
fn a_column_where_seeing_is_enough() {
    let script = [
        table(1, 0),
        table(2, 0),
        constraint((0, 0), (1, 1)),
        filling((0, 0), 1, 9),
        filling((1, 1), 1, 3),
        row(0, &[4]),
        row(1, &[7, 4]),
        row(1, &[8, 2]),
        row(1, &[9, 0]),
        end(),
        refer(0, 4),
        probe((1, 1), 4),
        refer(1, 2),
        probe((1, 1), 2),
        put(9, 1, &[5, 4]),
        probe((1, 1), 4),
        take(0),
        probe((1, 1), 4),
        probe((1, 0), 8),
    ]
    .concat();
    let expected = [
        "0 loaded 2 1",
        "1 ground 2 1",
        "2 loaded 1 0",
        "3 ground 1 1",
        "4 rows 1 0",
        "5 ground 2 2",
        "6 rows 0 3",
        "7 sent",
        "8 sent",
    ];
    assert_eq!(lines(&script), expected);
}

/// In case B two columns of table 0 are ended at: a value is seen in one, without a
/// ground, before and behind a row that comes.
#[test]
fn columns_where_seeing_is_not_enough() {
    let script = script_b(&[
        refer(0, 1),
        probe((0, 0), 2),
        put(3, 0, &[2, 5]),
        probe((0, 0), 2),
        query((0, 1), 5, &[]),
    ]);
    let expected = [
        "0 loaded 3 2",
        "1 sent",
        "2 rows 1 0",
        "3 sent",
        "4 answer 3",
        "0",
        "1",
        "3",
    ];
    assert_eq!(lines(&script), expected);
}

/// 5 goes before 6, and a refused row changes nothing: its number stays free, or taken.
#[test]
fn refused_rows() {
    let place = DESIGN_A_LENGTH + 6;
    let faulty = [
        (put(7, 2, &[1, 1]), 5, "a taken number"),
        (put(512, 2, &[1, 1]), 5, "the first number too large"),
        (put(65_535, 2, &[1, 1]), 5, "the largest number"),
        (put(8, 3, &[1]), 5, "no such table"),
        (put(8, 255, &[0]), 5, "the table of a free number"),
        (put(8, 2, &[1, 1, 1]), 5, "a cell past the columns"),
        (
            put_with_issues(8, 2, &[(1, 0), (0, 1)]),
            5,
            "the issue of a blank",
        ),
        (
            put_with_issues(8, 2, &[(1, 0), (1, 0), (0, 1)]),
            5,
            "an issue past the columns",
        ),
        (put(8, 0, &[7, 1]), 6, "a value twice"),
        (
            put(8, 0, &[7, 1, 1]),
            5,
            "a value twice, and a cell past the columns",
        ),
        (put(0, 0, &[7, 1]), 5, "a value twice at a taken number"),
        (take(8), 5, "a free number"),
        (take(512), 5, "a number too large"),
        (take(65_535), 5, "the largest"),
    ];
    for (operation, cause, what) in faulty {
        let script = script_a(&[refer(0, 3), operation, put(8, 2, &[20, 9]), drop(0, 3)]);
        let refused = format!("1 refused {cause} {place}");
        let expected = ["0 loaded 5 2", &refused, "2 rows 1 0", "3 dropped 6"];
        assert_eq!(lines(&script), expected, "{what}");
    }
}

/// A blank cell isn't refused with 9, and all issues may be 0.
#[test]
fn blanks_are_taken() {
    let script = script_a(&[put(8, 0, &[0, 0]), put(9, 0, &[0, 3]), refer(0, 3)]);
    assert_eq!(lines(&script), ["0 rows 0 0", "1 rows 0 0", "2 loaded 6 2"]);
}

/// A value that a removed row had in a unique column can come again, at another number
/// too, and against all rows, those behind it included.
#[test]
fn values_of_removed_rows() {
    let script = script_a(&[
        put(9, 0, &[8, 4]),
        take(1),
        put(9, 0, &[8, 4]),
        put(1, 0, &[8, 3]),
        take(9),
        put(1, 0, &[8, 3]),
    ]);
    let expected = [
        &format!("0 refused 6 {DESIGN_A_LENGTH}"),
        "1 rows 0 0",
        "2 rows 0 0",
        &format!("3 refused 6 {}", DESIGN_A_LENGTH + 44 + 3 + 44),
        "4 rows 0 0",
        "5 rows 0 0",
    ];
    assert_eq!(lines(&script), expected);
}

/// Operations on the rows that are there: lists and totals rise by the new numbers.
#[test]
fn queries_read_the_rows_of_the_moment() {
    let script = script_a(&[
        refer(0, 3),
        take(5),
        put(300, 2, &[20, 70]),
        put(5, 1, &[23, 7]),
        put(100, 2, &[23, 4]),
        query((0, 1), 3, &[(0, 0), (1, 1)]),
        total((0, 1), 3, &[(0, 0), (1, 1)], (2, 1)),
        probe((2, 0), 20),
        take(0),
        query((0, 1), 3, &[(0, 0), (1, 1)]),
        probe((2, 0), 20),
        drop(0, 3),
    ]);
    let expected = [
        "0 loaded 5 2",
        "1 rows 0 1",
        "2 rows 1 0",
        "3 rows 1 0",
        "4 rows 1 0",
        "5 answer 3",
        "0 3 6",
        "0 3 300",
        "0 5 100",
        "6 total 80",
        "7 ground 2 2",
        "8 rows 0 6",
        "9 answer 0",
        "10 sent",
        "11 dropped 1",
    ];
    assert_eq!(lines(&script), expected);
}

/// 512 rows: none can come until one goes.
#[test]
fn all_numbers_taken() {
    let script = [
        table(1, 0),
        filling((0, 0), 1, 9),
        row(0, &[1]).repeat(512),
        end(),
        refer(0, 1),
        put(511, 0, &[1]),
        take(511),
        put(511, 0, &[1]),
        take(0),
        drop(0, 1),
    ]
    .concat();
    let refused = format!("1 refused 5 {}", 3 + 11 + 512 * 34 + 1 + 6);
    let expected = [
        "0 loaded 512 0",
        &refused,
        "2 rows 0 1",
        "3 rows 1 0",
        "4 rows 0 1",
        "5 dropped 511",
    ];
    assert_eq!(lines(&script), expected);
}

/// Desks and what they hold stay as they are, and the row set is for all of them.
#[test]
fn held_values_stay() {
    let script = script_a(&[
        refer(0, 3),
        desk(1),
        refer(0, 60),
        put(8, 0, &[60, 60]),
        drop(0, 60),
        take(8),
        desk(0),
        refer(0, 3),
    ]);
    let expected = [
        "0 loaded 5 2",
        "1 desk 1",
        "2 loaded 0 0",
        "3 rows 1 0",
        "4 dropped 1",
        "5 rows 0 0",
        "6 desk 0",
        "7 held",
    ];
    assert_eq!(lines(&script), expected);
}

/// A row's table and cells.
type Plain = (u8, [u32; 2]);

/// Linked tables of two columns, and rows that come and go among seven numbers.
struct Changing {
    tables: usize,
    /// The design up to the rows.
    head: Vec<u8>,
    rows: Vec<Option<Plain>>,
}

impl Changing {
    fn random(random: &mut Random) -> Changing {
        let tables = random.within(1, 2);
        let mut links: Vec<(Column, Column)> = Vec::new();
        for _ in 0..random.within(1, 3) {
            let mut column = || (random.below(tables) as u8, random.below(2) as u8);
            let link = (column(), column());
            if !links.contains(&link) {
                links.push(link);
            }
        }
        let links: Vec<u8> = links.iter().flat_map(|&(s, t)| constraint(s, t)).collect();
        let mut changing = Changing {
            tables,
            head: [table(2, 0).repeat(tables), links, filling((0, 0), 1, 9)].concat(),
            rows: vec![None; 7],
        };
        for number in 0..random.below(5) {
            changing.rows[number] = Some(changing.row(random));
        }
        changing
    }

    fn row(&self, random: &mut Random) -> Plain {
        let cells = [(); 2].map(|()| random.below(4) as u32);
        (random.below(self.tables) as u8, cells)
    }

    /// The design with the rows that are there, in rising number.
    fn design(&self) -> Vec<u8> {
        let rows = self.rows.iter().flatten();
        let rows = rows.flat_map(|(table, cells)| row(*table, cells));
        let head = self.head.iter().copied();
        head.chain(rows).chain(end()).collect()
    }

    /// A row that goes, or one that comes where none is.
    fn change(&mut self, random: &mut Random) -> Vec<u8> {
        let number = random.below(self.rows.len());
        if self.rows[number].take().is_some() {
            return take(number as u16);
        }
        let (table, cells) = self.row(random);
        self.rows[number] = Some((table, cells));
        put(number as u16, table, &cells)
    }

    /// Every probe.
    fn probes(&self) -> Vec<Vec<u8>> {
        let columns = (0..self.tables as u8).flat_map(|table| [(table, 0), (table, 1)]);
        let probes = columns.flat_map(|column| [1, 2, 3].map(|value| probe(column, value)));
        probes.collect()
    }
}

/// The last answers of a script, without their numbers.
fn last_answers(script: &[u8], count: usize) -> Vec<String> {
    let lines = lines(script);
    let last = lines[lines.len() - count..].iter();
    let answers = last.filter_map(|line| line.split_once(' '));
    answers.map(|(_, answer)| answer.into()).collect()
}

/// After rows have come and gone, the desk answers as one whose design had these rows
/// from the start, in the same order, and which was given the same loads.
#[test]
fn as_if_the_rows_had_always_been_there() {
    let mut dropped = 0;
    for number in 0..600 {
        let mut random = Random::new(number);
        let mut changing = Changing::random(&mut random);
        let value = 1 + random.below(3) as u32;
        let loads = [refer(0, value), hold(0, 3, 3)].concat();
        let first = changing.design();
        let changes = random.within(1, 8);
        let changes: Vec<u8> = (0..changes)
            .flat_map(|_| changing.change(&mut random))
            .collect();
        let mut asked = changing.probes();
        asked.extend([drop(0, value), release(0, 3, 3)]);
        let (count, asked) = (asked.len(), asked.concat());
        let changed = [first, loads.clone(), changes, asked.clone()].concat();
        let fresh = [changing.design(), loads, asked].concat();
        let answers = last_answers(&changed, count);
        assert_eq!(answers, last_answers(&fresh, count), "design {number}");
        let with_rows = |answer: &&String| answer.starts_with("dropped ") && *answer != "dropped 0";
        dropped += answers.iter().filter(with_rows).count();
    }
    assert!(dropped > 200, "{dropped}");
}
