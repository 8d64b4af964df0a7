//! Even and uneven designs among generated scripts: every report on a design says
//! the same, and the loads of even designs keep to the bound on their rounds.

use compare::generate;
use notation::{split, Command, Piece};

const SCRIPTS: u64 = 4_000;

/// What the report says about the design at the head of a script, if the design
/// is accepted; and the number of its tables.
fn evenness(script: &[u8]) -> Option<(String, usize)> {
    let pieces = split(script);
    let is_end = |piece: &Piece| *piece == Piece::Command(Command::End);
    let end = pieces.iter().position(is_end)?;
    let mut design: Vec<u8> = pieces[..=end].iter().flat_map(Piece::bytes).collect();
    design.extend(Command::Even.bytes());
    let report = reference::report(&design);
    let (head, line) = report.split_once("\n0 ")?;
    let tables = head.strip_prefix("design ")?.split(' ').next()?;
    Some((line.trim_end().into(), tables.parse().ok()?))
}

/// The accepted scripts of a seed: what is said about the design, its number of
/// tables, and the script's report.
fn accepted(seed: u64) -> impl Iterator<Item = (String, usize, String)> {
    (0..SCRIPTS).filter_map(move |number| {
        let script = generate::script(seed, number);
        let report = reference::report(&script);
        let (evenness, tables) = evenness(&script)?;
        report
            .starts_with("design ")
            .then_some((evenness, tables, report))
    })
}

#[test]
fn every_report_of_a_script_says_the_same() {
    let mut reports = 0;
    for (evenness, _, report) in accepted(8) {
        for line in report.lines() {
            let (_, answer) = line.split_once(' ').unwrap_or_default();
            if answer == "even" || answer.starts_with("uneven ") {
                assert_eq!(answer, evenness, "{report}");
                reports += 1;
            }
        }
    }
    assert!(reports > 2_000, "only {reports} reports");
}

#[test]
fn loads_in_even_designs_keep_to_the_bound() {
    let (mut loads, mut over) = (0, 0);
    for (evenness, tables, report) in accepted(9) {
        for line in report.lines() {
            if let [_, "loaded", _, rounds] = line.split(' ').collect::<Vec<_>>()[..] {
                let rounds: usize = rounds.parse().expect("a number");
                if evenness == "even" {
                    assert!(rounds < 2 * tables, "{tables} tables, {line}");
                    loads += 1;
                }
                over += usize::from(rounds >= 2 * tables);
            }
        }
    }
    assert!(loads > 2_000 && over > 100, "{loads} loads, {over} over");
}
