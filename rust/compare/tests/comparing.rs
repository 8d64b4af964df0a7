//! The comparison with desks that are right or wrong on purpose, all within
//! this process.

use std::io;

use compare::desk::Reply;
use compare::level::Level;
use compare::run::{compare, Desk, Scripts, Side, Sides, SECOND_IMPLEMENTATION};
use notation::{Command, Piece};

const SCRIPTS: Scripts = Scripts {
    seed: 1,
    count: 3_000,
    level: Level::NOW,
};

const FEW: Scripts = Scripts {
    count: 10,
    ..SCRIPTS
};

/// The second implementation as the desk, with its report altered.
fn altered(alter: impl Fn(String) -> String + Sync) -> impl Fn(&[u8]) -> io::Result<Reply> + Sync {
    move |script| {
        let report = alter(reference::report(script));
        Ok(Reply::Report(report.into_bytes()))
    }
}

/// A desk beside the second implementation.
fn sides<'a>(desk: &'a Desk<'a>) -> Sides<'a> {
    let name = "the desk";
    [Side { name, desk }, SECOND_IMPLEMENTATION]
}

#[test]
fn a_right_desk_passes_and_everything_is_reached() {
    let desk = altered(|report| report);
    let outcome = compare(&sides(&desk), SCRIPTS).expect("no failure");
    assert!(outcome.difference.is_none());
    assert_eq!(outcome.tally.missing(Level::NOW), [""; 0]);
}

#[test]
fn everything_of_a_level_is_reached_too() {
    let desk = altered(|report| report);
    for request in [1, 2, 3, 4, 6, 7, 8, 9, 10, 11, 12] {
        let level = Level::before(request);
        let scripts = Scripts { level, ..SCRIPTS };
        let outcome = compare(&sides(&desk), scripts).expect("no failure");
        assert_eq!(outcome.tally.missing(level), [""; 0], "before {request}");
        let now = outcome.tally.missing(Level::NOW);
        for (name, since) in [
            ("even", 1),
            ("query referred with lists", 2),
            ("refused 13", 3),
            ("issue loaded with rows", 6),
            ("refused 8", 7),
            ("absent", 8),
            ("opener", 9),
            ("range held", 10),
            ("rows that came", 12),
            ("knot of 3 constraints", 11),
        ] {
            assert_eq!(now.contains(&name), since >= request, "{request}: {now:?}");
        }
    }
}

/// Runs a wrong desk and gives the difference found, made small: its script,
/// and the whole of it as text.
fn difference(alter: impl Fn(String) -> String + Sync) -> (Vec<u8>, String) {
    let desk = altered(alter);
    let sides = sides(&desk);
    let outcome = compare(&sides, SCRIPTS).expect("no failure");
    let found = outcome.difference.expect("a difference");
    assert_eq!(found.comparison.script, SCRIPTS.script(found.number));
    assert!(found.comparison.differs());
    let reduced = found.comparison.reduced(&sides).expect("no failure");
    assert!(reduced.differs());
    let text = reduced.to_string();
    (reduced.script, text)
}

#[test]
fn a_wrong_ground_is_found_and_made_small() {
    let (script, text) = difference(|report| report.replace("ground 2", "ground 1"));
    assert!(
        text.contains("probe") && text.contains("constraint"),
        "{text}"
    );
    let loads = ["refer", "query", "total", "hold"];
    assert!(loads.iter().any(|load| text.contains(load)), "{text}");
    assert!(script.len() < 400, "{text}");
}

#[test]
fn a_wrong_place_is_found_and_made_small() {
    let (script, text) = difference(|report| report.replace("refused 3 ", "refused 3 1"));
    assert!(notation::split(&script).len() <= 3, "{text}");
}

#[test]
fn a_missing_line_end_is_found() {
    let (script, _) = difference(|report| report.trim_end().into());
    assert_eq!(script, []);
}

/// Checks that a script has tables, so many constraints, END and a report, and
/// nothing else.
fn assert_bare(script: &[u8], constraints: usize, text: &str) {
    let mut pieces = notation::split(script);
    pieces.retain(|piece| !matches!(piece, Piece::Command(Command::Table(_))));
    let (links, rest) = pieces.split_at(constraints);
    let is_link = |piece: &Piece| matches!(piece, Piece::Command(Command::Constraint(_)));
    assert!(links.iter().all(is_link), "{text}");
    assert_eq!(
        rest,
        [Command::End, Command::Even].map(Piece::Command),
        "{text}"
    );
}

#[test]
fn a_design_wrongly_called_even_is_found_and_made_small() {
    let (script, text) = difference(|report| report.replace(" uneven 0 0\n", " even\n"));
    assert_bare(&script, 1, &text);
}

#[test]
fn exchanged_constraints_are_found_and_made_small() {
    let exchange = |line: &str| match line.split(' ').collect::<Vec<_>>()[..] {
        [number, "uneven", i, j] => format!("{number} uneven {j} {i}\n"),
        _ => format!("{line}\n"),
    };
    let (script, text) = difference(|report| report.lines().map(exchange).collect());
    assert_bare(&script, 2, &text);
}

#[test]
fn a_list_left_out_is_found() {
    let (_, text) = difference(|report| report.replace("\n0 1\n", "\n"));
    assert!(text.contains("query") && text.contains("join"), "{text}");
}

#[test]
fn a_desk_that_fails_to_answer_differs() {
    for reply in [
        Reply::Killed(6),
        Reply::Failed(1),
        Reply::Complaint(b"oh\n".to_vec()),
        Reply::OutOfTime,
    ] {
        let desk = |_: &[u8]| Ok(reply.clone());
        let name = "the desk";
        let beside_itself = [Side { name, desk: &desk }; 2];
        for sides in [sides(&desk), beside_itself] {
            let outcome = compare(&sides, FEW).expect("no failure");
            assert!(outcome.difference.is_some());
        }
    }
}

#[test]
fn a_desk_that_cannot_be_run_is_a_failure() {
    let desk = |_: &[u8]| Err(io::ErrorKind::NotFound.into());
    let sides = sides(&desk);
    let outcome = compare(&sides, FEW);
    assert_eq!(
        outcome.map_err(|error| error.kind()).err(),
        Some(io::ErrorKind::NotFound)
    );
}
