//! Random numbers that depend on a seed alone (splitmix64), so that every
//! script can be made again.

use std::ops::RangeInclusive;
use std::time::{SystemTime, UNIX_EPOCH};

/// So many seeds, one at least: the first is given, the others are from the clock.
pub fn seeds(first: u64, count: u64) -> Vec<u64> {
    let clock = SystemTime::now().duration_since(UNIX_EPOCH);
    let clock = clock.map_or(0, |time| time.as_nanos() as u64);
    let seed = |number| match number {
        0 => first,
        number => clock.wrapping_add(number),
    };
    (0..count.max(1)).map(seed).collect()
}

/// A stream of random numbers.
#[derive(Clone, Debug)]
pub struct Random {
    state: u64,
}

impl Random {
    /// The stream with the given number among those of a seed.
    pub fn new(seed: u64, number: u64) -> Random {
        let of_seed = Random { state: seed }.next();
        let of_both = Random {
            state: of_seed ^ number,
        }
        .next();
        Random { state: of_both }
    }

    fn next(&mut self) -> u64 {
        self.state = self.state.wrapping_add(0x9e37_79b9_7f4a_7c15);
        let mut mixed = self.state;
        mixed = (mixed ^ (mixed >> 30)).wrapping_mul(0xbf58_476d_1ce4_e5b9);
        mixed = (mixed ^ (mixed >> 27)).wrapping_mul(0x94d0_49bb_1331_11eb);
        mixed ^ (mixed >> 31)
    }

    /// A number below `limit`, which isn't 0.
    pub fn below(&mut self, limit: usize) -> usize {
        (self.next() % limit as u64) as usize
    }

    /// A number of the range, which isn't empty.
    pub fn within(&mut self, range: RangeInclusive<usize>) -> usize {
        range.start() + self.below(range.end() - range.start() + 1)
    }

    /// True in so many of a hundred cases.
    pub fn percent(&mut self, chance: usize) -> bool {
        self.below(100) < chance
    }

    /// Any byte.
    pub fn byte(&mut self) -> u8 {
        self.next() as u8
    }

    /// One of the choices, of which there is at least one.
    pub fn pick<'a, T>(&mut self, choices: &'a [T]) -> &'a T {
        &choices[self.below(choices.len())]
    }

    /// Puts the items into any order.
    pub fn shuffle<T>(&mut self, items: &mut [T]) {
        for place in 1..items.len() {
            items.swap(place, self.below(place + 1));
        }
    }

    /// One of the choices if there are any.
    pub fn pick_any<'a, T>(&mut self, choices: &'a [T]) -> Option<&'a T> {
        (!choices.is_empty()).then(|| self.pick(choices))
    }
}

#[cfg(test)]
mod tests {
    use std::collections::BTreeSet;

    use super::*;

    fn first_numbers(seed: u64, number: u64) -> Vec<u64> {
        let mut random = Random::new(seed, number);
        (0..4).map(|_| random.next()).collect()
    }

    #[test]
    fn seed_and_number_decide_the_stream() {
        assert_eq!(first_numbers(1, 2), first_numbers(1, 2));
        assert_ne!(first_numbers(1, 2), first_numbers(1, 3));
        assert_ne!(first_numbers(1, 2), first_numbers(2, 2));
        assert_ne!(first_numbers(1, 2), first_numbers(2, 1));
    }

    #[test]
    fn shuffling_reaches_every_order() {
        let mut random = Random::new(1, 1);
        let orders = (0..200).map(|_| {
            let mut items = [0, 1, 2];
            random.shuffle(&mut items);
            items
        });
        let orders: BTreeSet<[usize; 3]> = orders.collect();
        assert_eq!(orders.len(), 6);
        assert!(orders.iter().all(|order| order.iter().sum::<usize>() == 3));
    }

    #[test]
    fn ranges_reach_both_ends_and_no_further() {
        let mut random = Random::new(1, 1);
        let numbers: Vec<usize> = (0..1_000).map(|_| random.within(3..=5)).collect();
        assert_eq!(numbers.iter().min(), Some(&3));
        assert_eq!(numbers.iter().max(), Some(&5));
    }
}
