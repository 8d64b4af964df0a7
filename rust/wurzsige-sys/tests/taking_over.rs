//! That a step by the plain name takes memory over whose catalog means nothing, and that a
//! refused one leaves everything as it was.

#![cfg(feature = "proved")]

use wurzsige_sys::{Memory, word};

/// A table of a column with candidates 1 to 9, and a row with 7 in it.
fn opened() -> Box<Memory> {
    let mut script = vec![0x01, 1, 1, 0x03, 0, 0, 1, 0, 0, 0, 9, 0, 0, 0, 0x04, 0, 7];
    script.resize(48, 0);
    script.push(0x05);
    let mut memory = Memory::boxed();
    assert_eq!(memory.open(&script).word, word::DESIGN);
    memory
}

/// The same with a catalog that means nothing.
fn lent() -> Box<Memory> {
    let mut memory = opened();
    memory.catalog_mut().fill(u16::MAX);
    memory.keys_mut().fill(u64::MAX);
    memory
}

#[test]
fn a_refused_step_leaves_everything() {
    let refused: [(&[u8], u64); 5] = [
        (&[0x10, 0], 1),
        (&[0xff], 2),
        (&[0x05], 3),
        (&[0x10, 1, 7, 0, 0, 0], 5),
        (&[0x11, 0, 7, 0, 0, 0], 10),
    ];
    for before in [opened(), lent()] {
        for (script, cause) in refused {
            let mut memory = before.boxed_copy();
            let told = memory.step(script, 0, &mut [], &mut []);
            assert_eq!((told.word, told.numbers[0]), (word::REFUSED, cause));
            assert!(memory == before, "cause {cause}");
        }
    }
}

#[test]
fn after_a_step_that_is_not_refused_trusted_ones_may_follow() {
    let refer = [0x10, 0, 7, 0, 0, 0];
    for mut memory in [opened(), lent()] {
        assert_eq!(memory.step(&[0x14], 0, &mut [], &mut []).word, word::EVEN);
        // SAFETY: a step was taken here that wasn't refused.
        let told = unsafe { memory.step_trusted(&refer, 0, &mut [], &mut []) };
        assert_eq!((told.word, told.numbers[0]), (word::LOADED, 1));
    }
}
