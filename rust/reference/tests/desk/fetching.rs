//! Queries that refer their value first (document 02, Req 02).

use crate::bytes::*;
use crate::lines::{lines, lines_lending};
use reference::report;

/// Subjects of a ward with their recordings and events, in case A's design.
fn ward(value: u32) -> Vec<u8> {
    query((0, 1), value, &[(0, 0), (1, 1)])
}

#[test]
fn review_without_load() {
    let script = script_a(&[
        ward(3),
        probe((0, 1), 3),
        refer(0, 3),
        drop(0, 3),
        probe((0, 1), 3),
    ]);
    let expected = [
        "0 answer 2",
        "0 3 5",
        "0 3 6",
        "1 ground 1 2",
        "2 held",
        "3 dropped 5",
        "4 sent",
    ];
    assert_eq!(lines(&script), expected);
}

#[test]
fn sent_without_a_filling_or_a_candidate_and_held_without_a_row() {
    let script = script_a(&[
        query((1, 1), 7, &[]),
        query((0, 1), 100, &[]),
        query((0, 1), 50, &[]),
        probe((0, 1), 50),
    ]);
    assert_eq!(
        lines(&script),
        ["0 sent", "1 sent", "2 answer 0", "3 ground 1 0"]
    );
}

#[test]
fn a_reference_is_undone_if_the_answer_is_too_long() {
    let script = script_a(&[
        ward(3),
        probe((0, 1), 3),
        ward(4),
        probe((0, 1), 4),
        drop(0, 3),
    ]);
    let expected = [
        "0 refused 11 303",
        "1 sent",
        "2 answer 1",
        "2 4 7",
        "3 ground 1 1",
        "4 refused 10 349",
    ];
    assert_eq!(lines_lending(&script, 5), expected);
}

/// What was cached before stays, and what the reference would have added beside
/// it is gone.
#[test]
fn an_undone_reference_leaves_the_rest_of_the_cache() {
    let script = script_a(&[
        ward(4),
        ward(3),
        probe((1, 0), 20),
        probe((1, 0), 21),
        refer(0, 3),
        drop(0, 4),
    ]);
    let expected = [
        "0 answer 1",
        "2 4 7",
        "1 refused 11 319",
        "2 sent",
        "3 ground 3 1",
        "4 loaded 5 2",
        "5 dropped 3",
    ];
    assert_eq!(lines_lending(&script, 5), expected);
}

#[test]
fn at_16_held_values_a_query_is_sent_and_not_refused() {
    let held: Vec<Vec<u8>> = (10..=25).map(|value| refer(0, value)).collect();
    let script = script_a(&[
        held.concat(),
        query((0, 1), 3, &[]),
        refer(0, 3),
        drop(0, 10),
        query((0, 1), 3, &[]),
    ]);
    let expected = [
        "16 sent",
        "17 refused 8 415",
        "18 dropped 0",
        "19 answer 2",
        "0",
        "1",
    ];
    assert_eq!(lines(&script)[16..], expected);
}

#[test]
fn queries_take_the_places_of_held_values() {
    let queries: Vec<Vec<u8>> = (10..=25).map(|value| query((0, 1), value, &[])).collect();
    let script = script_a(&[
        queries.concat(),
        query((0, 1), 26, &[]),
        query((0, 1), 25, &[]),
        refer(0, 26),
        drop(0, 25),
        refer(0, 26),
    ]);
    let lines = lines(&script);
    let place = DESIGN_A_LENGTH + 18 * 16;
    let refused = format!("18 refused 8 {place}");
    let expected = [
        "15 answer 0",
        "16 sent",
        "17 answer 0",
        &refused,
        "19 dropped 0",
        "20 loaded 0 0",
    ];
    assert_eq!(lines[15..], expected);
}

/// The value has ground 2, so it isn't referred, though it is a candidate.
#[test]
fn a_query_with_another_ground_refers_nothing() {
    let script = [
        table(1, 0),
        table(1, 0),
        constraint((0, 0), (1, 0)),
        filling((0, 0), 1, 9),
        filling((1, 0), 1, 9),
        row(0, &[3]),
        row(1, &[3]),
        end(),
        refer(0, 3),
        query((1, 0), 3, &[]),
        drop(1, 3),
    ]
    .concat();
    let expected = ["0 loaded 2 1", "1 answer 1", "1", "2 refused 10 124"];
    assert_eq!(lines(&script), expected);
}

#[test]
fn neither_does_one_with_ground_3() {
    let script = [
        table(2, 0b10),
        filling((0, 0), 1, 9),
        filling((0, 1), 1, 9),
        row(0, &[3, 5]),
        end(),
        query((0, 0), 3, &[]),
        query((0, 1), 5, &[]),
        probe((0, 1), 5),
        drop(1, 5),
        drop(0, 3),
    ]
    .concat();
    let place = script.len() - 12;
    let refused = format!("3 refused 10 {place}");
    let expected = [
        "0 answer 1",
        "0",
        "1 answer 1",
        "0",
        "2 ground 3 1",
        &refused,
        "4 dropped 1",
    ];
    assert_eq!(lines(&script), expected);
}

#[test]
fn the_ends_of_the_candidates() {
    for (value, answer) in [(4, "sent"), (5, "answer 0"), (7, "answer 0"), (8, "sent")] {
        let script = [
            table(1, 0),
            filling((0, 0), 5, 7),
            end(),
            query((0, 0), value, &[]),
        ];
        assert_eq!(lines(&script.concat()), [format!("0 {answer}")], "{value}");
    }
}

#[test]
fn a_refused_query_refers_nothing() {
    let refused = [
        (query((0, 1), 3, &[(0, 1)]), 5),
        (raw_query((0, 1), 3, 0, [(0, 0), (0, 0), (0, 0), (0, 1)]), 5),
        (raw_query((0, 1), 3, 5, [(0, 0); 4]), 5),
        (query((0, 1), 0, &[]), 9),
    ];
    for (query, cause) in refused {
        let script = script_a(&[query, probe((0, 1), 3), drop(0, 3)]);
        let place = DESIGN_A_LENGTH;
        let expected = [
            format!("0 refused {cause} {place}"),
            "1 sent".into(),
            format!("2 refused 10 {}", place + 16 + 7),
        ];
        assert_eq!(lines(&script), expected);
    }
}

/// Each filling holds a value by itself, and a query's column names the filling.
#[test]
fn the_filling_is_the_one_of_the_queried_column() {
    let script = [
        table(2, 0),
        filling((0, 1), 1, 9),
        filling((0, 0), 1, 9),
        row(0, &[3, 4]),
        row(0, &[4, 3]),
        row(0, &[3, 3]),
        end(),
        query((0, 0), 3, &[]),
        drop(0, 3),
        query((0, 1), 3, &[]),
        drop(1, 3),
        drop(0, 3),
    ]
    .concat();
    let place = script.len() - 6 - 6 - 16 - 6;
    let refused = format!("1 refused 10 {place}");
    let expected = [
        "0 answer 2",
        "0",
        "2",
        &refused,
        "2 answer 2",
        "1",
        "2",
        "3 dropped 1",
        "4 dropped 2",
    ];
    assert_eq!(lines(&script), expected);
}

/// 50 rows, each of which demands the same 41: 2,050 lists of two.
#[test]
fn the_program_undoes_a_reference_too() {
    let design = [
        table(1, 0),
        table(1, 0),
        constraint((0, 0), (1, 0)),
        filling((0, 0), 1, 1),
        row(0, &[1]).repeat(50),
        row(1, &[1]).repeat(41),
        end(),
    ]
    .concat();
    let operations = [
        query((0, 0), 1, &[(0, 0)]),
        probe((0, 0), 1),
        refer(0, 1),
        drop(0, 1),
    ]
    .concat();
    let place = design.len();
    let expected =
        format!("design 2 1 1 91\n0 refused 11 {place}\n1 sent\n2 loaded 91 1\n3 dropped 91\n");
    assert_eq!(report(&[design, operations].concat()), expected);
}
