//! The library under comparison, beside the second implementation on a few states.

use std::collections::BTreeSet;

use lent::case::Case;
use lent::library::UNDER_COMPARISON;
use lent::run::compare;
use lent::tally::Tally;
use reference::lent::Flaw;

const STATES: u64 = 3_000;

#[test]
fn there_is_no_difference() {
    let mut tally = Tally::default();
    for number in 0..STATES {
        let compared = compare(UNDER_COMPARISON, &Case::new(2, number), &mut tally);
        if let Err(difference) = compared {
            panic!("state {number}\n{difference}");
        }
    }
}

#[test]
fn every_flaw_is_reached() {
    let flaws = (0..STATES).filter_map(|number| Case::new(2, number).flaw);
    let reached: BTreeSet<Flaw> = flaws.collect();
    for flaw in Flaw::ALL {
        assert!(reached.contains(&flaw), "{}", flaw.name());
    }
}

#[test]
fn what_was_not_reached_is_missing() {
    let mut tally = Tally::default();
    let all = tally.missing();
    tally.add_state(Some(Flaw::FreeMark));
    tally.add_sizes(12, [0; 3]);
    let missing = tally.missing();
    assert_eq!(missing.len(), all.len() - 2);
    assert!(!missing.contains(&Flaw::FreeMark.name().to_string()));
    assert!(!missing.contains(&"sizes: refused 12".to_string()));
}
