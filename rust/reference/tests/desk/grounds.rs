//! How many rows stand behind a yes (document 02, Req 04).

use crate::bytes::*;
use crate::random::Random;
use reference::report;

/// The lines after the head, without lists.
fn lines(script: &[u8]) -> Vec<String> {
    let report = report(script);
    let lines = report.lines().skip(1).filter(|line| {
        let (_, answer) = line.split_once(' ').unwrap_or_default();
        answer.starts_with(char::is_alphabetic)
    });
    lines.map(String::from).collect()
}

#[test]
fn after_the_load_of_case_a() {
    let script = script_a(&[
        refer(0, 3),
        probe((1, 1), 8),
        probe((1, 0), 20),
        probe((0, 1), 3),
        query((0, 1), 3, &[]),
        probe((2, 0), 20),
        query((2, 0), 20, &[]),
    ]);
    let expected = [
        "0 loaded 5 2",
        "1 ground 2 0",
        "2 ground 3 1",
        "3 ground 1 2",
        "4 answer 2",
        "5 ground 2 2",
        "6 answer 2",
    ];
    assert_eq!(lines(&script), expected);
}

/// Three rows have the value in the source column, two in the probed one, and one
/// in another column of the probed table.
#[test]
fn the_probed_column_is_counted() {
    let script = [
        table(1, 0),
        table(2, 0),
        constraint((0, 0), (1, 0)),
        filling((0, 0), 1, 9),
        row(0, &[3]).repeat(3),
        row(1, &[3, 3]),
        row(1, &[3, 4]),
        end(),
        refer(0, 3),
        probe((1, 0), 3),
        probe((0, 0), 3),
        probe((1, 1), 3),
    ]
    .concat();
    let expected = ["0 loaded 5 1", "1 ground 2 2", "2 ground 1 3", "3 sent"];
    assert_eq!(lines(&script), expected);
}

#[test]
fn a_held_value_without_rows_is_a_yes_with_none() {
    let script = script_a(&[refer(0, 50), probe((0, 1), 50), query((0, 1), 50, &[])]);
    let expected = ["0 loaded 0 0", "1 ground 1 0", "2 answer 0"];
    assert_eq!(lines(&script), expected);
}

#[test]
fn all_rows() {
    let script = [
        table(1, 0),
        filling((0, 0), 1, 9),
        row(0, &[3]).repeat(512),
        end(),
        refer(0, 3),
        probe((0, 0), 3),
    ]
    .concat();
    assert_eq!(lines(&script), ["0 loaded 512 0", "1 ground 1 512"]);
}

/// A query without joins has exactly as many lists as the probe says after it,
/// when its value may have been referred, and its total adds the value up as often.
/// The probe before it says the same, or "sent".
#[test]
fn queries_and_totals_agree_with_the_count() {
    let mut grounds = [0; 4];
    for number in 0..2_000 {
        let mut random = Random::new(number);
        let asked = (random.below(2) as u8, random.below(2) as u8);
        let value = 1 + random.below(3) as u32;
        let rows = (0..random.below(12)).flat_map(|place| {
            let cells = [place as u32 + 1, random.below(4) as u32];
            row(random.below(2) as u8, &cells)
        });
        let script = [
            table(2, 0b01),
            table(2, 0b01),
            constraint((0, 1), (1, 1)),
            constraint((1, 1), (0, 1)),
            filling((0, 0), 1, 20),
            filling((1, 1), 1, 20),
            rows.collect(),
            end(),
            refer(0, 1),
            refer(1, 2),
            probe(asked, value),
            query(asked, value, &[]),
            probe(asked, value),
            total(asked, value, &[], (0, asked.1)),
        ]
        .concat();
        let lines = lines(&script);
        let words: Vec<&str> = lines[4].split(' ').collect();
        let ["4", "ground", ground, rows] = words[..] else {
            assert_eq!(lines[2..], ["2 sent", "3 sent", "4 sent", "5 sent"]);
            continue;
        };
        let before = format!("2 ground {ground} {rows}");
        assert!(lines[2] == "2 sent" || lines[2] == before, "{lines:?}");
        let [ground, rows] = [ground, rows].map(|word| word.parse::<u32>().expect("a number"));
        assert_eq!(lines[3], format!("3 answer {rows}"));
        assert_eq!(lines[5], format!("5 total {}", rows * value));
        grounds[ground as usize] += 1;
    }
    assert!(grounds[1..].iter().all(|&count| count > 20), "{grounds:?}");
}
