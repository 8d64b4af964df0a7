//! Reading and writing the lists of lent words while they are changed.

use std::ops::RangeInclusive;

use compare::random::Random;
use reference::lent::layout::{self, List, FILLINGS, TABLES};
use reference::lent::Lent;

/// How many places of a list are used.
pub fn count(words: &[u32], list: List) -> usize {
    words[list.count] as usize
}

/// Any used place of a list, as the place of its first word.
pub fn any_used(random: &mut Random, words: &[u32], list: List) -> Option<usize> {
    let count = count(words, list);
    (count > 0).then(|| list.place(random.below(count)).start)
}

/// Adds an item to a list, if there is room.
pub fn append(words: &mut [u32], list: List, item: &[u32]) -> Option<()> {
    let count = count(words, list);
    if count == list.most {
        return None;
    }
    words[list.place(count)].copy_from_slice(item);
    words[list.count] += 1;
    Some(())
}

/// Makes a word of an unused place something else than 0: by a change, or by a lower
/// count.
pub fn use_unused(random: &mut Random, words: &mut [u32], list: List) -> Option<()> {
    let count = count(words, list);
    if count > 0 && random.percent(20) {
        // A place that is wholly 0 would be a right unused one.
        let is_zero = words[list.place(count - 1)].iter().all(|&word| word == 0);
        words[list.count] -= 1;
        return (!is_zero).then_some(());
    }
    let unused = list.place(count).start..list.words().end;
    if unused.is_empty() {
        return None;
    }
    words[random.within(unused.start..=unused.end - 1)] = any_word(random).max(1);
    Some(())
}

/// A number from the range, its ends more often than others.
pub fn around(random: &mut Random, range: RangeInclusive<u32>) -> u32 {
    let (low, high) = (*range.start(), *range.end());
    match random.below(4) {
        0 => low,
        1 => high,
        _ => random.within(low as usize..=high as usize) as u32,
    }
}

/// A small number, one near a limit, or any.
pub fn any_word(random: &mut Random) -> u32 {
    match random.below(6) {
        0 => random.below(10) as u32,
        1 => *random.pick(&[0, 1, 4, 8, 9, 16, 17, 64, 65]),
        2 => *random.pick(&[254, 255, 256, 257, 258]),
        3 => u32::MAX - random.below(2) as u32,
        4 => 1 << random.below(32),
        _ => u32::from_le_bytes([(); 4].map(|()| random.byte())),
    }
}

/// The word 256, or a larger power of 2, above what it was: the same byte.
pub fn above_a_byte(random: &mut Random, word: &mut u32) {
    *word += 256 << random.below(24);
}

/// Any filling: its number, and its words.
pub fn any_filling(random: &mut Random, lent: &Lent) -> Option<(u32, [u32; 4])> {
    let count = count(&lent.design, FILLINGS);
    let number = (count > 0).then(|| random.below(count))?;
    let words = &lent.design[FILLINGS.place(number)];
    Some((number as u32, words.try_into().ok()?))
}

/// The words of a used filling.
pub fn filling(lent: &Lent, number: u32) -> [u32; 4] {
    let words = &lent.design[FILLINGS.place(number as usize)];
    [words[0], words[1], words[2], words[3]]
}

/// The columns of a used table.
pub fn columns(lent: &Lent, table: u8) -> usize {
    lent.design[TABLES.place(table.into()).start] as usize
}

/// A desk whose number of ranges passes a test, and the list of them.
pub fn any_ranges(random: &mut Random, lent: &Lent, test: impl Fn(usize) -> bool) -> Option<List> {
    let lists = (0..4).map(layout::ranges);
    let lists: Vec<List> = lists
        .filter(|&list| test(count(&lent.held, list)))
        .collect();
    random.pick_any(&lists).copied()
}
