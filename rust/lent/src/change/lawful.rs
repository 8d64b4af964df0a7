//! Changes that leave a state lawful, though perhaps no run of its script leads there.

use compare::random::Random;
use reference::held::DESKS;
use reference::lent::layout::{FILLINGS, NAMED_DESK, TABLES, VALUES};
use reference::lent::{Lent, FREE, ROWS};

use super::words::{any_used, count};

/// A change, if the state is one that can have it.
type Change = fn(&mut Random, &mut Lent) -> Option<()>;

const CHANGES: [(&str, Change); 5] = [
    ("a free number becomes a row of blanks", |random, lent| {
        let tables = count(&lent.design, TABLES);
        let is_free = |row: &usize| lent.tables[*row] == FREE;
        let free: Vec<usize> = (0..ROWS).filter(is_free).collect();
        let row = *random.pick_any(&free)?;
        lent.tables[row] = (tables > 0).then(|| random.below(tables))? as u8;
        Some(())
    }),
    ("a filling has every candidate", |random, lent| {
        let place = any_used(random, &lent.design, FILLINGS)?;
        lent.design[place + 2..place + 4].copy_from_slice(&[1, u32::MAX]);
        Some(())
    }),
    ("a table without unique columns", |random, lent| {
        let place = any_used(random, &lent.design, TABLES)?;
        lent.design[place + 1] = 0;
        Some(())
    }),
    ("another desk is named", |random, lent| {
        lent.held[NAMED_DESK] = random.below(DESKS) as u32;
        Some(())
    }),
    ("two held values exchanged", |random, lent| {
        let [one, other] = [(); 2].map(|()| any_used(random, &lent.held, VALUES));
        let (one, other) = (one?, other?);
        for word in 0..VALUES.width {
            lent.held.swap(one + word, other + word);
        }
        Some(())
    }),
];

/// Changes a state into another lawful one.
pub fn change(random: &mut Random, lent: &mut Lent) -> String {
    let (what, change) = *random.pick(&CHANGES);
    let mut changed = lent.clone();
    match change(random, &mut changed) {
        None => "none".to_string(),
        Some(()) => {
            *lent = changed;
            what.to_string()
        }
    }
}

#[cfg(test)]
mod tests {
    use super::*;
    use crate::states::sound;

    #[test]
    fn the_changed_state_is_lawful() {
        for number in 0..1_000 {
            let mut random = Random::new(5, number);
            let mut lent = sound(&mut random).lent;
            let what = change(&mut random, &mut lent);
            assert_eq!(lent.desk().err(), None, "{what}, {number}");
        }
    }
}
