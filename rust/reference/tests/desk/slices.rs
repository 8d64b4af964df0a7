//! What a slice lacks, and what a design decides of its columns, worked out by hand.

use crate::bytes::*;
use reference::lent::{missing, open, step, verdicts, Lent};

/// Document 01's design A, without its rows.
fn design() -> Vec<u8> {
    [
        table(2, 0b01),
        table(2, 0b01),
        table(2, 0),
        constraint((0, 0), (1, 1)),
        constraint((1, 0), (2, 0)),
        filling((0, 1), 1, 99),
        end(),
    ]
    .concat()
}

fn opened() -> Lent {
    let mut lent = Lent::zeros();
    assert_eq!(open(&design(), &mut lent).cause(), None);
    lent
}

fn done(lent: &mut Lent, command: &[u8]) {
    assert_eq!(step(command, 0, lent, &mut [], &mut []).cause(), None);
}

/// Rows that a fetch brings: number, table and cells.
type Brought = &'static [(u16, u8, [u32; 2])];

/// Case A, fetched bit by bit: ward 3, the recordings of subjects 7 and 8, the events of
/// recording 20.
#[test]
fn case_a_is_fetched_bit_by_bit() {
    let mut lent = opened();
    done(&mut lent, &refer(0, 3));
    let mut fetches: Vec<[u32; 5]> = Vec::new();
    let expected: [([u32; 5], Brought); 4] = [
        ([0, 0, 1, 3, 0], &[(0, 0, [7, 3]), (1, 0, [8, 3])]),
        ([0, 1, 1, 7, 0], &[(2, 1, [20, 7])]),
        ([0, 1, 1, 8, 0], &[]),
        ([0, 2, 0, 20, 0], &[(3, 2, [20, 5]), (4, 2, [20, 6])]),
    ];
    for (fetch, rows) in expected {
        let asked = missing(&lent, &fetches.concat(), fetches.len());
        assert_eq!(asked, Ok(Some(fetch)));
        for &(number, table, cells) in rows {
            done(&mut lent, &put(number, table, &cells));
        }
        fetches.push(fetch);
    }
    assert_eq!(missing(&lent, &fetches.concat(), fetches.len()), Ok(None));
}

/// A range is asked for up to the next span, from behind what is known.
#[test]
fn a_range_is_asked_for_between_what_was_fetched() {
    let mut lent = opened();
    done(&mut lent, &hold(0, 10, 30));
    let asked = |fetches: &[[u32; 5]]| missing(&lent, &fetches.concat(), fetches.len());
    let value = [0, 0, 1, 10, 0];
    let span = [1, 0, 1, 15, 19];
    assert_eq!(asked(&[]), Ok(Some([1, 0, 1, 10, 30])));
    assert_eq!(asked(&[value]), Ok(Some([1, 0, 1, 11, 30])));
    assert_eq!(asked(&[value, span]), Ok(Some([1, 0, 1, 11, 14])));
    let both = [1, 0, 1, 1, 19];
    assert_eq!(asked(&[both]), Ok(Some([1, 0, 1, 20, 30])));
    assert_eq!(asked(&[[0, 0, 1, 10, 1]]), Ok(Some([1, 0, 1, 10, 30])));
    assert_eq!(asked(&[[1, 0, 1, 1, u32::MAX]]), Ok(None));
}

#[test]
fn words_that_are_no_list_of_fetches_are_refused() {
    use reference::refusal::Cause::{TooShort, Unlawful, WrongOperand};
    let lent = opened();
    let cause = |words: &[u32], count| missing(&lent, words, count).err();
    assert_eq!(cause(&[0, 0, 0, 1, 0], 1), None);
    assert_eq!(cause(&[0, 0, 0, 1], 1), Some(TooShort));
    assert_eq!(cause(&[], usize::MAX), Some(TooShort));
    for wrong in [
        [2, 0, 0, 1, 1],
        [0, 3, 0, 1, 0],
        [0, 0, 2, 1, 0],
        [0, 0, 0, 0, 0],
        [0, 0, 0, 1, 256],
        [1, 0, 0, 2, 1],
        [1, 0, 0, 0, 1],
    ] {
        assert_eq!(cause(&wrong, 1), Some(WrongOperand), "{wrong:?}");
    }
    let value = [0, 0, 0, 1, 0];
    let (first, second) = ([1, 0, 0, 1, 5], [1, 0, 0, 5, 9]);
    assert_eq!(cause(&[value, value].concat(), 2), Some(WrongOperand));
    assert_eq!(cause(&[first, value].concat(), 2), Some(WrongOperand));
    assert_eq!(cause(&[first, second].concat(), 2), Some(WrongOperand));
    assert_eq!(cause(&[first, [1, 0, 0, 6, 9]].concat(), 2), None);
    // What is wrong with the state comes first.
    let mut unlawful = lent.clone();
    unlawful.marks[0] = 1;
    assert_eq!(missing(&unlawful, &[], 1), Err(Unlawful));
}

#[test]
fn the_verdicts_on_case_a() {
    use reference::refusal::Cause::{TooShort, Unlawful};
    let lent = opened();
    let words = verdicts(&lent.design).expect("a design");
    assert_eq!(words[..2], [4, 1 + 16]);
    assert_eq!(words[8..10], [4, 2 + 16]);
    assert_eq!(words[16..18], [256 + 2 + 16, 8]);
    assert_eq!(words.iter().filter(|&&word| word != 0).count(), 6);
    assert_eq!(verdicts(&lent.design[..114]), Err(TooShort));
    let mut unlawful = lent.design;
    unlawful[3] = 9;
    assert_eq!(verdicts(&unlawful), Err(Unlawful));
}

/// Without a filling nothing is ever cached, and no column can have a ground.
#[test]
fn without_a_filling_every_probe_is_sent() {
    let script = [table(1, 1), constraint((0, 0), (0, 0)), end()].concat();
    let mut lent = Lent::zeros();
    assert_eq!(open(&script, &mut lent).cause(), None);
    assert_eq!(verdicts(&lent.design).expect("a design")[0], 8 + 16);
}
