//! The scripts to compare on. Most are small, since each costs a process; the
//! rare ones go to the limits.

mod damage;
mod design;
mod desks;
mod even;
mod extremes;
mod fetching;
mod grounds;
mod limits;
mod openings;
mod operations;
mod ranges;
mod reasons;
mod rows;
mod spoil;
mod totals;

use notation::{encode, Command};

use crate::random::Random;
use design::{Draft, Shape};
use operations::{report, Operator};
use spoil::spoil;

/// A way to make a script, with its share among all scripts.
type Kind = (usize, fn(&mut Random) -> Vec<u8>);

const KINDS: [Kind; 37] = [
    (40, |random| ordinary(random, &Shape::SPARSE)),
    (25, |random| ordinary(random, &Shape::DENSE)),
    (15, |random| worked(random, Draft::chain)),
    (50, damaged),
    (20, spoilt),
    (6, early),
    (20, damage::noise),
    (20, limits::design_counts),
    (10, limits::held_values),
    (14, limits::answer_words),
    (4, limits::rows),
    (3, limits::script_length),
    (10, extremes::words_around_the_limit),
    (4, extremes::many_rounds),
    (4, extremes::all_rows),
    (3, extremes::many_commands),
    (12, even::cycles),
    (6, even::two_rings),
    (12, even::several_rings),
    (6, even::most_rounds),
    (20, fetching::visits),
    (10, fetching::last_place),
    (8, grounds::unique_columns),
    (16, desks::shared),
    (6, desks::full),
    (16, openings::openers),
    (3, openings::far),
    (16, reasons::rows),
    (16, ranges::weeks),
    (6, ranges::full),
    (20, rows::coming_and_going),
    (2, rows::hundreds),
    (4, rows::broken_ring),
    (2, rows::all_numbers),
    (8, totals::largest),
    (6, totals::crowd),
    (6, totals::beside_a_group),
];

/// The script with the given number among those of a seed.
pub fn script(seed: u64, number: u64) -> Vec<u8> {
    let mut random = Random::new(seed, number);
    let shares = KINDS.iter().map(|(share, _)| share).sum();
    let mut drawn = random.below(shares);
    for (share, make) in KINDS {
        if drawn < share {
            return make(&mut random);
        }
        drawn -= share;
    }
    unreachable!("a number below the sum of all shares falls into one of them")
}

fn ordinary(random: &mut Random, shape: &Shape) -> Vec<u8> {
    worked(random, |random| Draft::random(random, shape))
}

fn damaged(random: &mut Random) -> Vec<u8> {
    let script = ordinary(random, &Shape::SPARSE);
    damage::damage(random, script)
}

/// A design with one wrong command, and some operations in case it is accepted.
fn spoilt(random: &mut Random) -> Vec<u8> {
    let draft = Draft::random(random, &Shape::SPARSE);
    let mut commands = draft.design.commands();
    let place = random.below(commands.len());
    commands[place] = spoil(random, &draft.design, commands[place]);
    with_operations(random, &draft, commands, 3)
}

/// A design with an operation before its END, a report in half of the cases.
fn early(random: &mut Random) -> Vec<u8> {
    let draft = Draft::random(random, &Shape::SPARSE);
    let mut commands = draft.design.commands();
    let operation = if random.percent(50) {
        report(random)
    } else {
        Operator::new(&draft).operation(random)
    };
    commands.insert(random.below(commands.len()), operation);
    with_operations(random, &draft, commands, 3)
}

/// A design with some operations on it.
fn worked(random: &mut Random, draft: impl Fn(&mut Random) -> Draft) -> Vec<u8> {
    let draft = draft(random);
    let count = random.within(0..=40);
    with_operations(random, &draft, draft.design.commands(), count)
}

/// The commands and then as many random operations on the design.
fn with_operations(
    random: &mut Random,
    draft: &Draft,
    mut commands: Vec<Command>,
    count: usize,
) -> Vec<u8> {
    let mut operator = Operator::new(draft);
    commands.extend((0..count).map(|_| operator.operation(random)));
    encode(&commands)
}

#[cfg(test)]
mod tests {
    use super::*;

    #[test]
    fn seed_and_number_decide_the_script() {
        for number in 0..200 {
            assert_eq!(script(1, number), script(1, number));
        }
        assert!((0..200).any(|number| script(1, number) != script(2, number)));
    }

    #[test]
    fn most_scripts_are_small() {
        let small = (0..2_000).filter(|&number| script(1, number).len() < 4_096);
        assert!(small.count() > 1_700);
    }
}
