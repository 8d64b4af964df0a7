//! The value that would open a query (document 02, Req 09).

use crate::bytes::*;
use crate::lines::lines;
use crate::random::Random;

#[test]
fn before_any_load() {
    let script = script_a(&[
        opener((1, 1), 7, 0),
        opener((2, 0), 21, 0),
        opener((2, 1), 5, 0),
        opener((0, 1), 50, 0),
        opener((0, 1), 100, 0),
    ]);
    let expected = ["0 0 3 0", "1 0 4 0", "2 none", "3 0 50 0", "4 none"];
    assert_eq!(lines(&script), expected);
}

#[test]
fn after_a_load() {
    let script = script_a(&[
        refer(0, 3),
        opener((2, 0), 20, 0),
        opener((1, 0), 21, 0),
        opener((0, 0), 9, 0),
        opener((3, 0), 1, 0),
        opener((0, 1), 0, 0),
        opener((3, 0), 0, 0),
        opener((0, 1), 0, 7),
        opener((0, 1), 3, 0),
        drop(0, 3),
    ]);
    let place = DESIGN_A_LENGTH + 6 + 3 * 8;
    let refused = |number: usize, cause: u8| {
        let place = place + (number - 4) * 8;
        format!("{number} refused {cause} {place}")
    };
    let expected = [
        "0 loaded 5 2",
        "1 open",
        "2 0 4 0",
        "3 0 4 0",
        &refused(4, 5),
        &refused(5, 9),
        &refused(6, 5),
        &refused(7, 9),
        "8 open",
        "9 dropped 5",
    ];
    assert_eq!(lines(&script), expected);
}

/// A lower value of the same column brings a row that demands the probed one.
#[test]
fn a_lower_value_of_the_same_column() {
    let script = [
        table(2, 0),
        table(1, 0),
        constraint((0, 1), (1, 0)),
        constraint((1, 0), (0, 0)),
        filling((0, 0), 1, 9),
        row(0, &[2, 5]),
        row(0, &[7, 2]),
        row(1, &[5]),
        row(1, &[2]),
        end(),
        opener((0, 0), 5, 0),
        opener((0, 0), 9, 0),
    ]
    .concat();
    assert_eq!(lines(&script), ["0 0 2 0", "1 0 9 0"]);
}

#[test]
fn openers_with_issues() {
    let script = [
        table(1, 0b1),
        table(1, 0),
        constraint((1, 0), (0, 0)),
        filling((1, 0), 3, 9),
        filling((0, 0), 1, 9),
        row_with_issues(0, &[(4, 2)]),
        row_with_issues(1, &[(4, 2)]),
        row_with_issues(1, &[(4, 1)]),
        row(1, &[2]),
        end(),
        opener((0, 0), 4, 2),
        opener((0, 0), 4, 0),
        opener((0, 0), 2, 0),
        opener((0, 0), 4, 1),
    ]
    .concat();
    assert_eq!(lines(&script), ["0 0 4 2", "1 1 4 0", "2 1 2 0", "3 0 4 1"]);
}

/// A full desk would refuse the load, and its query is sent: still there is one.
#[test]
fn a_full_desk() {
    let held: Vec<u8> = (10..=25).flat_map(|value| refer(0, value)).collect();
    let script = script_a(&[held, query((0, 1), 3, &[]), opener((0, 1), 3, 0)]);
    assert_eq!(lines(&script)[16..], ["16 sent", "17 0 3 0"]);
}

/// Another desk's values are held too: there is nothing to open.
#[test]
fn a_value_of_another_desk() {
    let script = script_a(&[
        refer(0, 3),
        desk(1),
        opener((0, 1), 3, 0),
        opener((1, 1), 9, 0),
    ]);
    assert_eq!(
        lines(&script),
        ["0 loaded 5 2", "1 desk 1", "2 open", "3 0 4 0"]
    );
}

/// The state is the same afterwards: neither held nor cached.
#[test]
fn nothing_is_loaded() {
    let script = script_a(&[
        opener((0, 1), 3, 0),
        probe((0, 1), 3),
        drop(0, 3),
        refer(0, 3),
    ]);
    let refused = format!("2 refused 10 {}", DESIGN_A_LENGTH + 8 + 7);
    let expected = ["0 0 3 0", "1 sent", &refused, "3 loaded 5 2"];
    assert_eq!(lines(&script), expected);
}

/// The lowest filling goes before the lowest value, and the value before the issue.
#[test]
fn the_lowest_of_several() {
    let script = [
        table(3, 0),
        table(1, 0),
        constraint((0, 2), (1, 0)),
        filling((0, 1), 5, 99),
        filling((0, 0), 1, 99),
        row_with_issues(0, &[(1, 0), (30, 1), (8, 0)]),
        row_with_issues(0, &[(2, 0), (20, 3), (8, 0)]),
        row_with_issues(0, &[(3, 0), (20, 2), (8, 0)]),
        row(0, &[4, 3, 8]),
        row(0, &[50, 3, 9]),
        end(),
        opener((1, 0), 8, 0),
        opener((1, 0), 9, 0),
        opener((1, 0), 10, 0),
    ]
    .concat();
    assert_eq!(lines(&script), ["0 0 20 2", "1 1 50 0", "2 none"]);
}

/// What is printed gives a ground once it is loaded, and no candidate that comes
/// before it does: by loads of all candidates, held or in rows or not.
#[test]
fn openers_of_generated_designs() {
    let (mut found, mut none) = (0, 0);
    for number in 0..600 {
        let mut random = Random::new(number);
        let mut design = table(2, random.below(4) as u8).repeat(2);
        let column = |random: &mut Random| (random.below(2) as u8, random.below(2) as u8);
        let links: Vec<_> = (0..random.within(1, 3))
            .map(|_| constraint(column(&mut random), column(&mut random)))
            .collect();
        design.extend(links.concat());
        let (low, high) = (1 + random.below(2) as u32, 4);
        let fillings = [column(&mut random), column(&mut random)];
        design.extend(fillings.map(|column| filling(column, low, high)).concat());
        for _ in 0..random.below(8) {
            let other = random.below(5) as u32;
            let issue = other.min(random.below(2) as u32) as u8;
            let cells = [(1 + random.below(5) as u32, 1), (other, issue)];
            design.extend(row_with_issues(random.below(2) as u8, &cells));
        }
        design.extend(end());
        let before = refer(random.below(2) as u8, 1 + random.below(4) as u32);
        let (asked, value) = (column(&mut random), 1 + random.below(5) as u32);
        let issue = random.below(2) as u8;
        let script = [&design[..], &before, &opener(asked, value, issue)].concat();
        if !reference::report(&script).starts_with("design ") {
            continue;
        }
        let probe = with_issue(issue, &probe(asked, value));
        let is_open = |load: &[u8]| {
            let script = [&design[..], &before, load, &probe].concat();
            !lines(&script).last().expect("a line").ends_with(" sent")
        };
        let mut loads = Vec::new();
        for filling in 0..2 {
            for number in low..=high {
                loads.extend((0..3).map(|issue| (filling, number, issue)));
            }
        }
        let first = loads
            .into_iter()
            .find(|&(filling, number, issue)| is_open(&with_issue(issue, &refer(filling, number))));
        let expected = match first {
            _ if is_open(&[]) => "open".into(),
            Some((filling, number, issue)) => format!("{filling} {number} {issue}"),
            None => "none".into(),
        };
        found += usize::from(first.is_some());
        none += usize::from(first.is_none());
        let lines = lines(&script);
        assert_eq!(lines[1], format!("1 {expected}"), "design {number}");
    }
    assert!(found > 60 && none > 60, "{found} {none}");
}
