//! That a refused opening leaves memory alone and can't be taken for a desk: the loop that
//! the header shows goes on while `more` is 1.

#![cfg(feature = "proved")]

use wurzsige_sys::{MOST_SCRIPT, Memory, word};

const TABLE: [u8; 3] = [0x01, 1, 1];

/// A row of table 0 with 7 in its first cell.
fn row() -> Vec<u8> {
    let mut row = vec![0x04, 0, 7];
    row.resize(34, 0);
    row
}

#[test]
fn a_refused_design_leaves_everything_and_stops() {
    let twice = [&TABLE[..], &row(), &row(), &[0x05]].concat();
    let refused: [(Vec<u8>, u64, usize); 8] = [
        (vec![], 1, 0),
        (TABLE.to_vec(), 1, 3),
        (vec![0x01, 1, 1, 0xff], 2, 3),
        (vec![0x01, 1, 1, 0x14], 3, 3),
        (TABLE.repeat(9), 4, 24),
        (vec![0x05; MOST_SCRIPT + 1], 4, 0),
        (vec![0x01, 9, 0, 0x05], 5, 0),
        (twice, 6, 37),
    ];
    let mut memory = Memory::boxed();
    for filled in [false, true] {
        if filled {
            assert_eq!(memory.open(&[0x01, 2, 0, 0x05]).word, word::DESIGN);
        }
        for (script, cause, place) in &refused {
            let before = memory.boxed_copy();
            let told = memory.open(script);
            assert_eq!((told.word, told.count), (word::REFUSED, 1), "{cause}");
            assert_eq!((told.numbers[0], told.place), (*cause, *place));
            assert_eq!(told.numbers[1..], [0; 15]);
            assert_eq!((told.more, told.next), (0, 0), "cause {cause}");
            assert!(memory == before, "cause {cause}");
        }
    }
}

#[test]
fn an_accepted_design_goes_on_behind_its_end() {
    let mut memory = Memory::boxed();
    let script = [&TABLE[..], &row(), &[0x05, 0x14]].concat();
    let told = memory.open(&script);
    assert_eq!((told.word, told.count, told.more), (word::DESIGN, 4, 1));
    assert_eq!(told.numbers[..5], [1, 0, 0, 1, 0]);
    assert_eq!((told.place, told.next), (0, 38));
}
