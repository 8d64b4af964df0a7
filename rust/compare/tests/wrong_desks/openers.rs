//! Desks that are wrong about what would open a probe.

use compare::level::Level;
use reference::design::Design;
use reference::desk::{Answer, Desk};
use reference::script::{Command, Pair, Probe};

use crate::performing::is_found;

/// Whether a desk is found that gives something else where there is an opener.
fn is_found_with(answer: impl Fn(&Design, &Desk, Probe, Pair) -> Answer + Sync) -> bool {
    is_found(Level::NOW, |design, desk, command| {
        match (command, desk.perform(command)) {
            (Command::Opener(probe), Ok(Answer::Opener(pair))) => {
                Ok(answer(design, desk, *probe, pair))
            }
            (_, answer) => answer,
        }
    })
}

/// The ground of a probe once a pair is loaded.
fn ground(desk: &Desk, probe: Probe, pair: Pair) -> Option<u8> {
    let mut desk = desk.clone();
    let _ = desk.perform(&Command::Refer(pair));
    match desk.perform(&Command::Probe(probe)) {
        Ok(Answer::Ground { ground, .. }) => Some(ground),
        _ => None,
    }
}

#[test]
fn a_desk_that_forgets_a_ground() {
    for forgotten in 1..=3 {
        assert!(is_found_with(|_, desk, probe, pair| {
            match ground(desk, probe, pair) {
                Some(ground) if ground == forgotten => Answer::NoOpener,
                _ => Answer::Opener(pair),
            }
        }));
    }
}

#[test]
fn a_desk_without_an_opener_where_it_is_full() {
    assert!(is_found_with(|_, desk, _, pair| {
        match desk.held().has_room() {
            true => Answer::Opener(pair),
            false => Answer::NoOpener,
        }
    }));
}

#[test]
fn a_desk_that_takes_the_probed_value_first() {
    assert!(is_found_with(|design, _, probe, pair| {
        let filling = design.fillings[pair.filling];
        let is_candidate = (filling.low..=filling.high).contains(&probe.value.number);
        match filling.column == probe.column && is_candidate {
            true => Answer::Opener(Pair {
                value: probe.value,
                ..pair
            }),
            false => Answer::Opener(pair),
        }
    }));
}

#[test]
fn a_desk_that_passes_over_the_issue_of_an_opener() {
    assert!(is_found_with(|_, _, _, mut pair| {
        pair.value.issue = 0;
        Answer::Opener(pair)
    }));
}

#[test]
fn a_desk_that_loads_the_opener() {
    assert!(is_found(Level::NOW, |_, desk, command| {
        let answer = desk.perform(command);
        if let Ok(Answer::Opener(pair)) = answer {
            let _ = desk.perform(&Command::Refer(pair));
        }
        answer
    }));
}
