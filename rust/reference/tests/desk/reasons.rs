//! The reason for a row in words (document 02, Req 08).

use crate::bytes::*;
use crate::lines::lines;
use crate::random::Random;
use reference::report_lending_text;

const OF_ROW_5: &str =
    "row 5 by constraint 1 from row 3 by constraint 0 from row 0 by value 3 of filling 0";

#[test]
fn the_rows_of_case_a() {
    let script = script_a(&[
        refer(0, 3),
        reason(5),
        reason(0),
        reason(2),
        reason(7),
        reason(8),
        drop(0, 3),
        reason(5),
    ]);
    let of_row_5 = format!("1 {OF_ROW_5}");
    let expected = [
        "0 loaded 5 2",
        &of_row_5,
        "2 row 0 by value 3 of filling 0",
        "3 absent",
        "4 absent",
        "5 refused 5 321",
        "6 dropped 5",
        "7 absent",
    ];
    assert_eq!(lines(&script), expected);
}

/// The lowest constraint goes before the lowest row.
#[test]
fn two_links_of_one_length() {
    let script = [
        table(2, 0),
        table(1, 0),
        constraint((0, 1), (1, 0)),
        constraint((0, 0), (1, 0)),
        filling((0, 0), 1, 99),
        filling((0, 1), 1, 99),
        row(0, &[5, 9]),
        row(0, &[9, 5]),
        row(1, &[5]),
        row(1, &[9]),
        end(),
        refer(1, 9),
        refer(0, 9),
        reason(3),
        reason(2),
    ]
    .concat();
    let expected = [
        "0 loaded 3 1",
        "1 loaded 1 0",
        "2 row 3 by constraint 0 from row 0 by value 9 of filling 1",
        "3 row 2 by constraint 0 from row 1 by value 9 of filling 0",
    ];
    assert_eq!(lines(&script), expected);
}

/// By what is held now, and not by how the row came.
#[test]
fn a_shorter_chain_since_a_later_load() {
    let script = script_b(&[
        refer(0, 1),
        reason(1),
        refer(0, 2),
        reason(1),
        drop(0, 2),
        reason(1),
    ]);
    let by_row_2 =
        "row 1 by constraint 1 from row 2 by constraint 0 from row 0 by value 1 of filling 0";
    let expected = [
        "0 loaded 3 2",
        &format!("1 {by_row_2}"),
        "2 loaded 0 0",
        "3 row 1 by value 2 of filling 0",
        "4 dropped 0",
        &format!("5 {by_row_2}"),
    ];
    assert_eq!(lines(&script), expected);
}

#[test]
fn values_with_an_issue() {
    let script = [
        table(2, 0),
        constraint((0, 1), (0, 0)),
        filling((0, 0), 1, 9),
        row_with_issues(0, &[(1, 7), (2, 0)]),
        row_with_issues(0, &[(2, 0), (3, 4)]),
        row_with_issues(0, &[(3, 4), (1, 7)]),
        end(),
        with_issue(7, &refer(0, 1)),
        reason(2),
    ]
    .concat();
    let expected = [
        "0 loaded 3 2",
        "1 row 2 by constraint 0 from row 1 by constraint 0 from row 0 by value 1 issue 7 of filling 0",
    ];
    assert_eq!(lines(&script), expected);
}

/// The lowest filling, then the lowest number, then the lowest issue, whatever desk
/// holds it and whenever it was referred.
#[test]
fn the_lowest_of_several_values() {
    let script = [
        table(2, 0),
        constraint((0, 1), (0, 1)),
        filling((0, 1), 1, 99),
        filling((0, 0), 1, 99),
        row_with_issues(0, &[(5, 0), (7, 2)]),
        row_with_issues(0, &[(5, 0), (7, 1)]),
        row(0, &[5, 6]),
        end(),
        refer(1, 5),
        reason(0),
        with_issue(2, &refer(0, 7)),
        reason(0),
        desk(2),
        with_issue(1, &refer(0, 7)),
        reason(1),
        drop(1, 5),
        refer(0, 6),
        reason(2),
    ]
    .concat();
    let refused = format!("7 refused 10 {}", script.len() - 3 - 6 - 6);
    let expected = [
        "0 loaded 3 0",
        "1 row 0 by value 5 of filling 1",
        "2 loaded 0 0",
        "3 row 0 by value 7 issue 2 of filling 0",
        "4 desk 2",
        "5 loaded 0 0",
        "6 row 1 by value 7 issue 1 of filling 0",
        &refused,
        "8 loaded 0 0",
        "9 row 2 by value 6 of filling 0",
    ];
    assert_eq!(lines(&script), expected);
}

#[test]
fn rows_that_are_not_there() {
    for row in [8, 511, 512, 65_535] {
        let script = script_a(&[refer(0, 3), reason(row), reason(0)]);
        let refused = format!("1 refused 5 {}", DESIGN_A_LENGTH + 6);
        assert_eq!(
            lines(&script)[1..],
            [refused.as_str(), "2 row 0 by value 3 of filling 0"]
        );
    }
}

/// A sentence exactly as long as the text fits. Absent rows need none.
#[test]
fn a_text_that_is_too_short() {
    let script = script_a(&[refer(0, 3), reason(5), reason(2), reason(0)]);
    let place = DESIGN_A_LENGTH + 6;
    let lines = |text_bytes| -> Vec<String> {
        let report = report_lending_text(&script, text_bytes);
        report.lines().skip(2).map(String::from).collect()
    };
    let length = OF_ROW_5.len();
    assert_eq!(lines(length)[0], format!("1 {OF_ROW_5}"));
    let refused = format!("1 refused 11 {place}");
    let rest = ["2 absent", "3 row 0 by value 3 of filling 0"];
    assert_eq!(lines(length - 1), [&refused, rest[0], rest[1]]);
    assert_eq!(lines(0)[..2], [&refused, rest[0]]);
    assert!(lines(0)[2].starts_with("3 refused 11 "));
}

/// The longest sentence is shorter than the program's text.
#[test]
fn a_chain_of_all_rows() {
    let links: Vec<u8> = (1..=512)
        .flat_map(|i| row_with_issues(0, &[(u32::MAX - i, 200), (u32::MAX - i - 1, 200)]))
        .collect();
    let script = [
        table(2, 0b01),
        constraint((0, 1), (0, 0)),
        filling((0, 0), 1, u32::MAX),
        links,
        end(),
        with_issue(200, &refer(0, u32::MAX - 1)),
        reason(511),
    ]
    .concat();
    let lines = lines(&script);
    assert_eq!(lines[0], "0 loaded 512 511");
    let start = "1 row 511 by constraint 0 from row 510 by constraint 0 from row 509 ";
    assert!(lines[1].starts_with(start), "{}", &lines[1][..99]);
    let end = " from row 0 by value 4294967294 issue 200 of filling 0";
    assert!(lines[1].ends_with(end));
    assert_eq!(lines[1].matches(" by constraint 0 from row ").count(), 511);
    assert!(lines[1].len() < 16_384, "{}", lines[1].len());
}

/// A link of a chain: the constraint, and the row that it comes from.
type Link = (usize, usize);

/// A small design, its constraints, rows and what is held: values of column 0 of
/// each table, by the filling of that table.
struct Held {
    constraints: Vec<(Column, Column)>,
    rows: Vec<(u8, [u32; 2])>,
    pairs: Vec<(u8, u32)>,
}

impl Held {
    fn any(random: &mut Random) -> Held {
        let tables = 2;
        let mut constraints: Vec<(Column, Column)> = Vec::new();
        for _ in 0..random.within(1, 4) {
            let mut column = || (random.below(tables) as u8, random.below(2) as u8);
            let link = (column(), column());
            if !constraints.contains(&link) {
                constraints.push(link);
            }
        }
        let rows = (0..random.within(1, 7)).map(|_| {
            let cells = [random.below(4) as u32, random.below(4) as u32];
            (random.below(tables) as u8, cells)
        });
        let rows = rows.collect();
        let mut pairs = Vec::new();
        for _ in 0..random.within(1, 3) {
            let pair = (random.below(tables) as u8, 1 + random.below(3) as u32);
            if !pairs.contains(&pair) {
                pairs.push(pair);
            }
        }
        Held {
            constraints,
            rows,
            pairs,
        }
    }

    fn script(&self) -> Vec<u8> {
        let links = self.constraints.iter();
        let rows = self.rows.iter();
        let pairs = self.pairs.iter();
        [
            table(2, 0).repeat(2),
            links.flat_map(|&(s, t)| constraint(s, t)).collect(),
            filling((0, 0), 1, 9),
            filling((1, 0), 1, 9),
            rows.flat_map(|(table, cells)| row(*table, cells)).collect(),
            end(),
            pairs
                .flat_map(|&(filling, value)| refer(filling, value))
                .collect(),
            (0..self.rows.len() as u16).flat_map(reason).collect(),
        ]
        .concat()
    }

    fn demands(&self, constraint: usize, source: usize, target: usize) -> bool {
        let (from, to) = self.constraints[constraint];
        let ((source, cells), (target, others)) = (self.rows[source], self.rows[target]);
        let value = cells[usize::from(from.1)];
        source == from.0 && target == to.0 && value != 0 && value == others[usize::from(to.1)]
    }

    /// All chains of so many links that end at a row, each with its value.
    fn chains(&self, row: usize, links: usize) -> Vec<(Vec<Link>, (u8, u32))> {
        if links == 0 {
            let (table, cells) = self.rows[row];
            let own = self.pairs.iter().filter(|pair| **pair == (table, cells[0]));
            return own.map(|&pair| (Vec::new(), pair)).collect();
        }
        let mut chains = Vec::new();
        for constraint in 0..self.constraints.len() {
            for source in 0..self.rows.len() {
                if self.demands(constraint, source, row) {
                    for (mut chain, pair) in self.chains(source, links - 1) {
                        chain.insert(0, (constraint, source));
                        chains.push((chain, pair));
                    }
                }
            }
        }
        chains
    }

    /// What has to be said about a row: the first chain of the fewest links.
    fn reason(&self, row: usize) -> String {
        let mut lengths = (0..self.rows.len()).map(|links| self.chains(row, links));
        let Some((links, (filling, value))) = lengths.find_map(|chains| chains.into_iter().min())
        else {
            return "absent".into();
        };
        let link = |(constraint, source)| format!(" by constraint {constraint} from row {source}");
        let links: String = links.into_iter().map(link).collect();
        format!("row {row}{links} by value {value} of filling {filling}")
    }
}

/// Among all chains from what is held, the first of the shortest.
#[test]
fn reasons_of_generated_designs() {
    let (mut long, mut absent) = (0, 0);
    for number in 0..3_000 {
        let held = Held::any(&mut Random::new(number));
        let lines = lines(&held.script());
        let first = held.pairs.len();
        for row in 0..held.rows.len() {
            let expected = held.reason(row);
            long += usize::from(expected.matches("constraint").count() > 1);
            absent += usize::from(expected == "absent");
            let line = format!("{} {expected}", first + row);
            assert_eq!(lines[first + row], line, "design {number}");
        }
    }
    assert!(long > 60 && absent > 500, "{long} {absent}");
}
