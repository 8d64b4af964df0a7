//! Small changes of a candidate.

use compare::random::Random;
use notation::Table;

use super::aim;
use super::candidate::{Candidate, Kind};

/// The candidate with one to three changes.
pub fn mutate(random: &mut Random, kind: Kind, candidate: &Candidate) -> Candidate {
    let mut candidate = candidate.clone();
    for _ in 0..random.within(1..=3) {
        change(random, kind, &mut candidate);
    }
    candidate
}

fn change(random: &mut Random, kind: Kind, candidate: &mut Candidate) {
    let Candidate {
        design,
        before,
        repeated,
    } = candidate;
    match random.below(10) {
        0 => aim::add_constraint(random, design),
        1 => {
            // Queries name constraints by number: one that goes may make their
            // joins wrong, and then they are refused.
            let place = random.below(design.constraints.len().max(1));
            if place < design.constraints.len() {
                design.constraints.remove(place);
                aim::add_constraint(random, design);
            }
        }
        2 => aim::add_filling(random, design),
        3 | 4 => {
            let column = *random.pick(&design.columns());
            let pattern = random.below(aim::PATTERNS);
            // A unique column can't have a value twice.
            let Table { unique, .. } = &mut design.tables[usize::from(column.table)];
            *unique &= !(1 << column.column);
            aim::fill(random, design, column, pattern);
        }
        5 => *before = aim::before(random, design),
        6 => *repeated = aim::repeated(random, kind, design),
        7 => repeated.extend(aim::repeated(random, kind, design)),
        8 => {
            let place = random.below(repeated.len());
            if repeated.len() > 1 {
                repeated.remove(place);
            }
        }
        _ => {
            let length = random.within(1..=repeated.len());
            repeated.truncate(length);
        }
    }
}
