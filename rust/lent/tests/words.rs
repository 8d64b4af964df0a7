//! Words of a design that an unchecked call would take for others.

use lent::library::{Library, UNDER_COMPARISON};
use lent::memory::Memory;
use notation::assemble;
use reference::lent::{Lent, Told};
use reference::refusal::Cause;

/// Document 01's design A with its first value held.
const CASE_A: &str = "\
table 2 unique 0
table 2 unique 0
table 2
constraint 0.0 -> 1.1
constraint 1.0 -> 2.0
filling 0.1 1..99
row 0 7 3
row 0 8 3
row 0 9 4
row 1 20 7
row 1 21 9
row 2 20 5
row 2 20 6
row 2 21 5
end
refer 0 3
query 0.1 = 3 join 0 by 0 join 1 by 1
";

/// The place of table 0's columns, and of the target table of constraint 0.
const COLUMNS: usize = 3;
const TARGET_TABLE: usize = 21;

fn script() -> Vec<u8> {
    assemble(CASE_A).expect("a script")
}

/// The memory after the value is held, and the place of the query.
fn loaded(library: &dyn Library) -> (Memory, usize) {
    let script = script();
    let mut memory = Memory::new(&Lent::zeros(), 7).answering(7, 64, 64);
    let opened = library.open(&script, &mut memory);
    let told = library.step_trusted(&script, opened.next, &mut memory);
    assert_eq!(told.numbers[..2], [5, 2]);
    (memory, told.next)
}

/// Every call but opening refuses the memory with 12 and leaves it as it was.
fn assert_unlawful(memory: Memory, at: usize) {
    let library = UNDER_COMPARISON;
    let mut after = memory.clone().with_room(7, 4_096);
    let before = after.clone();
    let told = library.step(&script(), at, &mut after);
    assert_eq!(told, Told::stopped(Cause::Unlawful, 0, at));
    assert_eq!(library.write(&mut after), 12);
    assert_eq!(library.sizes(&script(), at, &mut after), 12);
    assert_eq!(after.difference(&before), None);
}

#[test]
fn the_design_as_it_was_is_answered() {
    let (mut memory, at) = loaded(UNDER_COMPARISON);
    let told = UNDER_COMPARISON.step(&script(), at, &mut memory);
    assert_eq!((told.cause(), told.numbers[0]), (None, 2));
    assert_eq!(memory.words.lent()[..6], [0, 3, 5, 0, 3, 6]);
}

/// An unchecked call would read past the rows, and past the tables.
#[test]
fn a_design_word_out_of_range_is_refused() {
    for (place, word) in [(COLUMNS, 200), (TARGET_TABLE, 255), (TARGET_TABLE, 3)] {
        let (mut memory, at) = loaded(UNDER_COMPARISON);
        memory.design.lent_mut()[place] = word;
        assert_unlawful(memory, at);
    }
}

/// An unchecked call would take the word for a byte, and answer as if nothing were wrong.
#[test]
fn a_design_word_256_above_its_value_is_refused() {
    for place in [COLUMNS, TARGET_TABLE] {
        let (mut memory, at) = loaded(UNDER_COMPARISON);
        memory.design.lent_mut()[place] += 256;
        assert_unlawful(memory, at);
    }
}
