//! Desks that are wrong about the smallest knot.

use compare::level::Level;
use reference::design::Design;
use reference::desk::Answer;

use crate::performing::is_found;

/// Whether a desk is found that gives something else for a knot.
fn is_found_with(knot: impl Fn(&Design, Vec<usize>) -> Vec<usize> + Sync) -> bool {
    is_found(Level::NOW, |design, desk, command| {
        match desk.perform(command) {
            Ok(Answer::Knot(right)) => Ok(Answer::Knot(knot(design, right))),
            answer => answer,
        }
    })
}

/// The design with its constraints the other way round.
fn reversed(design: &Design) -> Design {
    let mut design = design.clone();
    design.constraints.reverse();
    design
}

#[test]
fn a_desk_that_takes_the_highest_numbers_first() {
    assert!(is_found_with(|design, knot| {
        let last = design.constraints.len() - 1;
        match reversed(design).knot() {
            Answer::Knot(other) => other.iter().rev().map(|i| last - i).collect(),
            _ => knot,
        }
    }));
}

#[test]
fn a_desk_that_gives_the_knot_of_the_lowest_pair() {
    assert!(is_found_with(|design, knot| match design.evenness() {
        Answer::Uneven { i, j } if !knot.contains(&i) || !knot.contains(&j) => vec![i, j],
        _ => knot,
    }));
}

#[test]
fn a_desk_that_loses_the_last_constraint_of_nine() {
    assert!(is_found_with(|_, knot| knot[..knot.len().min(8)].to_vec()));
}

#[test]
fn a_desk_that_takes_a_later_one_of_two_with_the_same_first() {
    assert!(is_found_with(|design, knot| {
        let mut rest = design.clone();
        let (&last, first) = knot.split_last().expect("a knot");
        rest.constraints.remove(last);
        match rest.knot() {
            Answer::Knot(other) if !first.is_empty() && other.starts_with(first) => other
                .into_iter()
                .map(|i| i + usize::from(i >= last))
                .collect(),
            _ => knot,
        }
    }));
}
