//! Changes of lent states: aimed at each flaw, at none, or at anything.
//!
//! An aimed change leaves the rest sound wherever it can: what is held stays the same set
//! of values, so that the marks stay right. Then nothing but the flaw itself is left to
//! refuse the state for.
//!
//! - `design`, `rows` and `held` aim at flaws of cause 12.
//! - `lawful` changes a state into another lawful one.
//! - `lengths` makes buffers shorter or longer.
//! - `anything` changes words and bytes at random.

mod anything;
mod design;
mod held;
mod lawful;
mod lengths;
mod rows;
mod words;

use compare::random::Random;
use reference::lent::{Flaw, Lent};

/// A change that gives a sound state a flaw, if the state is one that can have it.
pub struct Aim {
    /// The flaw.
    pub flaw: Flaw,
    change: fn(&mut Random, &mut Lent) -> Option<()>,
}

impl Aim {
    const fn new(flaw: Flaw, change: fn(&mut Random, &mut Lent) -> Option<()>) -> Aim {
        Aim { flaw, change }
    }

    /// The changed state, if there is one.
    pub fn at(&self, random: &mut Random, lent: &Lent) -> Option<Lent> {
        let mut changed = lent.clone();
        (self.change)(random, &mut changed)?;
        Some(changed)
    }
}

/// All aims. Some flaws have several.
pub fn aims() -> impl Iterator<Item = &'static Aim> {
    let of_design = design::AIMS.iter();
    of_design.chain(&rows::AIMS).chain(&held::AIMS)
}

/// How often another aim is tried for a state that can't have a flaw.
const TRIES: usize = 8;

/// What was changed in a sound state.
#[derive(Clone, Debug)]
pub struct Changed {
    /// The state as it is now.
    pub lent: Lent,
    /// What the change is, in words.
    pub what: String,
}

/// A state with a random change, or with none.
pub fn change(random: &mut Random, sound: &Lent) -> Changed {
    let mut lent = sound.clone();
    let mut what = match random.below(100) {
        0..=21 => "none".to_string(),
        22..=29 => lawful::change(random, &mut lent),
        30..=74 => aimed(random, &mut lent),
        75..=92 => anything::words(random, &mut lent),
        _ => lengths::shorten(random, &mut lent),
    };
    if random.percent(8) {
        what += ", ";
        what += &anything::words(random, &mut lent);
    }
    if random.percent(15) {
        what += ", ";
        what += &lengths::lengthen(random, &mut lent);
    }
    what += &differences(sound, &lent);
    Changed { lent, what }
}

/// Aims at any flaw that the state can have.
fn aimed(random: &mut Random, lent: &mut Lent) -> String {
    let aims: Vec<&Aim> = aims().collect();
    for _ in 0..TRIES {
        let aim = *random.pick(&aims);
        if let Some(changed) = aim.at(random, lent) {
            *lent = changed;
            return aim.flaw.name().to_string();
        }
    }
    "none".to_string()
}

/// The first few words that differ between two states.
fn differences(from: &Lent, to: &Lent) -> String {
    const SHOWN: usize = 12;
    let mut all = Vec::new();
    all.extend(differing("design", &from.design, &to.design));
    all.extend(differing("held", &from.held, &to.held));
    all.extend(differing("cells", &from.cells, &to.cells));
    all.extend(differing("issues", &from.issues, &to.issues));
    all.extend(differing("tables", &from.tables, &to.tables));
    all.extend(differing("marks", &from.marks, &to.marks));
    let more = if all.len() > SHOWN { " .." } else { "" };
    all.truncate(SHOWN);
    if all.is_empty() {
        return String::new();
    }
    format!(": {}{more}", all.join(", "))
}

fn differing<T: PartialEq + std::fmt::Display>(name: &str, from: &[T], to: &[T]) -> Vec<String> {
    let mut all = Vec::new();
    if from.len() != to.len() {
        all.push(format!("{name} of {} in place of {}", to.len(), from.len()));
    }
    for (place, (from, to)) in from.iter().zip(to).enumerate() {
        if from != to {
            all.push(format!("{name}[{place}] {to} in place of {from}"));
        }
    }
    all
}

#[cfg(test)]
mod tests {
    use super::*;
    use crate::states::sound;

    #[test]
    fn every_flaw_of_cause_12_is_aimed_at() {
        for flaw in Flaw::ALL {
            let is_aimed_at = aims().any(|aim| aim.flaw == flaw);
            assert_eq!(is_aimed_at, flaw.cause() as u8 == 12, "{}", flaw.name());
        }
    }

    #[test]
    fn an_aimed_change_has_its_flaw() {
        let mut hits = vec![0; aims().count()];
        for number in 0..300 {
            let mut random = Random::new(3, number);
            let sound = sound(&mut random).lent;
            for (aim, hits) in aims().zip(&mut hits) {
                if let Some(changed) = aim.at(&mut random, &sound) {
                    let flaw = changed.desk().err();
                    let what = differences(&sound, &changed);
                    assert_eq!(flaw, Some(aim.flaw), "{number}{what}");
                    *hits += 1;
                }
            }
        }
        for (aim, hits) in aims().zip(hits) {
            assert!(hits > 20, "{}: {hits}", aim.flaw.name());
        }
    }
}
