//! What is rare among designs that a report is on.

use notation::Piece;
use reference::design::Design;
use reference::desk::Answer as Reported;

use super::links::{has_cycle, links, way, Link};
use crate::answers::{number, Answer};

/// The outcomes of the reports on a design, each once.
pub fn outcomes(
    script: &[u8],
    head: &str,
    design: &[Piece],
    answers: &[Answer],
) -> Vec<&'static str> {
    let links = links(design);
    let find = |words: [&str; 2]| {
        let mut answers = answers.iter();
        answers.find(|answer| words.contains(&answer.words()[0]))
    };
    let mut outcomes = Vec::new();
    if let Some(report) = find(["even", "uneven"]) {
        outcomes.extend(evenness(head, &links, report, answers));
    }
    if let Some(report) = find(["knot", "knot"]) {
        outcomes.extend(knot(script, report));
    }
    outcomes
}

/// Uneven designs with a way through eight tables, and even ones with a cycle, or
/// with a load of as many rounds as eight tables allow.
fn evenness(head: &str, links: &[Link], report: &Answer, answers: &[Answer]) -> Vec<&'static str> {
    let mut outcomes = Vec::new();
    if let ["uneven", i, j] = report.words()[..] {
        if way(links, number(i), number(j)) == Some(7) {
            outcomes.push("uneven by a way of 7 steps");
        }
        return outcomes;
    }
    if has_cycle(links) {
        outcomes.push("even with a cycle");
    }
    let has_most_rounds = |answer: &Answer| match answer.words()[..] {
        ["loaded", _, rounds] => rounds == "15",
        _ => false,
    };
    if head.starts_with("design 8 ") && answers.iter().any(has_most_rounds) {
        outcomes.push("loaded in 15 rounds, 8 tables, even");
    }
    outcomes
}

/// Knots beside others of the same size, and those which the lowest pair isn't in.
fn knot(script: &[u8], report: &Answer) -> Vec<&'static str> {
    let mut outcomes = Vec::new();
    let Ok((design, _)) = Design::read(script) else {
        return outcomes;
    };
    let words = report.words();
    let knot: Vec<usize> = words[1..].iter().filter_map(|word| number(word)).collect();
    if let Reported::Uneven { i, j } = design.evenness() {
        if !knot.contains(&i) || !knot.contains(&j) {
            outcomes.push("knot without the lowest pair");
        }
    }
    let others: Vec<Vec<usize>> = knot
        .iter()
        .filter_map(|&out| knot_without(&design, out))
        .filter(|other| other.len() == knot.len())
        .collect();
    if !others.is_empty() {
        outcomes.push("knot beside another of its size");
    }
    if others.iter().any(|other| other[0] == knot[0]) {
        outcomes.push("knot told from another by a later number");
    }
    outcomes
}

/// The smallest knot that lacks a constraint, if there is one.
fn knot_without(design: &Design, out: usize) -> Option<Vec<usize>> {
    let mut rest = Design {
        tables: design.tables.clone(),
        constraints: design.constraints.clone(),
        ..Design::default()
    };
    rest.constraints.remove(out);
    match rest.knot() {
        Reported::Knot(knot) => Some(
            knot.into_iter()
                .map(|i| i + usize::from(i >= out))
                .collect(),
        ),
        _ => None,
    }
}

#[cfg(test)]
mod tests {
    use super::*;
    use crate::answers::answers;
    use notation::{assemble, split};

    /// The outcomes of the reports on a design.
    fn outcomes_of(tables: &str, links: &[&str]) -> Vec<&'static str> {
        let links: String = links.iter().map(|l| format!("constraint {l}\n")).collect();
        let script = assemble(&format!("{tables}{links}end\nknot\n")).expect("a right text");
        let report = reference::report(&script);
        let (head, operations) = report.split_once('\n').expect("a head");
        let answers = answers(operations);
        outcomes(&script, head, &split(&script), &answers)
    }

    #[test]
    fn knots_beside_others() {
        let tables = "table 2\ntable 2\n";
        let beside = "knot beside another of its size";
        for (links, expected) in [
            (&["0.0 -> 0.1"][..], &[][..]),
            (&["0.0 -> 0.1", "1.0 -> 1.1"], &[beside]),
            (
                &["0.0 -> 1.0", "1.1 -> 0.0", "1.1 -> 0.1"],
                &[beside, "knot told from another by a later number"],
            ),
            (
                &["0.0 -> 0.0", "0.1 -> 1.0", "1.0 -> 0.1", "1.0 -> 1.1"],
                &["knot without the lowest pair"],
            ),
        ] {
            assert_eq!(outcomes_of(tables, links), expected, "{links:?}");
        }
    }
}
