//! Words and bytes changed at random: most often near what is used.

use compare::random::Random;
use reference::lent::Lent;

use super::words::any_word;

/// One to three words or bytes, anywhere.
pub fn words(random: &mut Random, lent: &mut Lent) -> String {
    let count = random.within(1..=3);
    for _ in 0..count {
        match random.below(8) {
            0 | 1 => change_word(random, &mut lent.design, 40),
            2..=4 => change_word(random, &mut lent.held, 30),
            5 => change_word(random, &mut lent.cells, 80),
            6 => change_byte(random, &mut lent.issues, 80),
            _ => match random.below(2) {
                0 => change_byte(random, &mut lent.tables, 12),
                _ => change_byte(random, &mut lent.marks, 12),
            },
        }
    }
    format!("{count} at random")
}

/// A place, among the first ones in half of the cases.
fn place(random: &mut Random, length: usize, first: usize) -> Option<usize> {
    let limit = if random.percent(50) {
        length.min(first)
    } else {
        length
    };
    (limit > 0).then(|| random.below(limit))
}

fn change_word(random: &mut Random, words: &mut [u32], first: usize) {
    let Some(place) = place(random, words.len(), first) else {
        return;
    };
    let word = words[place];
    words[place] = match random.below(6) {
        0 => word.wrapping_add(1),
        1 => word.wrapping_sub(1),
        2 => word ^ 1 << random.below(32),
        3 => words[random.below(words.len())],
        _ => any_word(random),
    };
}

fn change_byte(random: &mut Random, bytes: &mut [u8], first: usize) {
    let Some(place) = place(random, bytes.len(), first) else {
        return;
    };
    let byte = bytes[place];
    bytes[place] = match random.below(6) {
        0 => byte.wrapping_add(1),
        1 => byte.wrapping_sub(1),
        2 => byte ^ 1 << random.below(8),
        3 => bytes[random.below(bytes.len())],
        4 => *random.pick(&[0, 1, 255]),
        _ => random.byte(),
    };
}
