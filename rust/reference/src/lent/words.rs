//! Lists in lent words, taken out and laid out.

use std::slice::ChunksExact;

use super::flaw::Flaw;
use super::layout::List;

/// A word that stands for a byte.
pub fn byte(word: u32, flaw: Flaw) -> Result<usize, Flaw> {
    flaw.unless(word < 256)?;
    Ok(word as usize)
}

/// What can be wrong with a list itself.
pub struct Flaws {
    /// Its count isn't below 256.
    pub byte: Flaw,
    /// Its count is above its places.
    pub many: Flaw,
    /// A place behind the count is not 0.
    pub unused: Flaw,
}

/// The used places of a list.
pub fn used<'a>(words: &'a [u32], list: List, flaws: &Flaws) -> Result<ChunksExact<'a, u32>, Flaw> {
    let count = byte(words[list.count], flaws.byte)?;
    flaws.many.unless(count <= list.most)?;
    let (used, unused) = words[list.words()].split_at(list.width * count);
    flaws.unused.unless(unused.iter().all(|&word| word == 0))?;
    Ok(used.chunks_exact(list.width))
}

/// Writes a list's count and its items, and 0 behind them.
pub fn put<const WIDTH: usize>(
    words: &mut [u32],
    list: List,
    items: impl ExactSizeIterator<Item = [u32; WIDTH]>,
) {
    words[list.count] = items.len() as u32;
    let places = &mut words[list.words()];
    places.fill(0);
    for (place, item) in places.chunks_exact_mut(WIDTH).zip(items) {
        place.copy_from_slice(&item);
    }
}
