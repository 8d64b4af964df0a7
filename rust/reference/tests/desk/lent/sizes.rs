//! How much is to be lent.

use reference::lent::{sizes, Lent, Sizes};

use super::{after, design, sound};
use crate::bytes::*;

/// The words and the text that a step would write.
fn needed(lent: &Lent, operation: &[u8]) -> (u64, u64) {
    let before = lent.clone();
    let told = sizes(operation, 0, lent).expect("a lawful state");
    assert_eq!(*lent, before);
    (told.words, told.text)
}

#[test]
fn the_written_design_and_nothing_else() {
    let expected = Sizes {
        bytes: design().len() as u64,
        words: 0,
        text: 0,
    };
    for operation in [refer(0, 4), even(), vec![], vec![0xff], table(1, 0)] {
        assert_eq!(sizes(&operation, 0, &sound()), Ok(expected));
    }
    assert_eq!(sizes(&refer(0, 4), 99, &sound()), Ok(expected));
}

#[test]
fn the_words_of_a_query() {
    let joins = [(0, 0), (1, 1)];
    assert_eq!(needed(&sound(), &query((0, 1), 3, &joins)), (6, 0));
    // Referred first: one list, 2 4 7.
    assert_eq!(needed(&sound(), &query((0, 1), 4, &joins)), (3, 0));
    // Sent, and refused.
    assert_eq!(needed(&sound(), &query((1, 1), 1, &[])), (0, 0));
    assert_eq!(needed(&sound(), &query((0, 1), 0, &[])), (0, 0));
    assert_eq!(needed(&sound(), &query((0, 1), 3, &[(0, 1)])), (0, 0));
    assert_eq!(needed(&sound(), &total((0, 1), 3, &[], (0, 0))), (0, 0));
}

#[test]
fn the_text_of_a_reason() {
    let sentence =
        "row 5 by constraint 1 from row 3 by constraint 0 from row 0 by value 3 of filling 0";
    assert_eq!(needed(&sound(), &reason(5)), (0, sentence.len() as u64));
    assert_eq!(needed(&sound(), &reason(2)), (0, 0));
    assert_eq!(needed(&sound(), &reason(8)), (0, 0));
}

#[test]
fn more_lists_than_can_be_written() {
    let mut design = [
        table(1, 0),
        constraint((0, 0), (0, 0)),
        filling((0, 0), 1, 1),
    ]
    .concat();
    design.extend(row(0, &[1]).repeat(512));
    design.extend(end());
    let lent = after(&design, &[]);
    let joins = [(0, 0), (1, 0), (2, 0), (3, 0)];
    assert_eq!(needed(&lent, &query((0, 0), 1, &joins)), (5 << 45, 0));
}

#[test]
fn a_script_that_is_too_long_has_no_step() {
    let mut script = query((0, 1), 3, &[]);
    script.resize(65_537, 0);
    assert_eq!(needed(&sound(), &script), (0, 0));
}
