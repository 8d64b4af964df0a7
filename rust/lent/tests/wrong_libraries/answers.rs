//! Libraries that tell something else, or leave something else in memory.

use lent::memory::Memory;
use reference::lent::{Told, Word, ALL_CELLS, FREE, ROWS};
use reference::refusal::Cause;

use super::wrong::{assert_answers_are_found, assert_causes_are_found, find, Call, Given, Wrong};

fn is_unlawful(given: &Given) -> bool {
    let flaw = given.before.lent().desk().err();
    flaw.is_some_and(|flaw| flaw.cause() == Cause::Unlawful)
}

#[test]
fn a_refusal_clears_the_answer_words() {
    assert_answers_are_found(|_, told, memory| {
        if told.cause() == Some(12) {
            memory.words.lent_mut().fill(0);
        }
    });
}

#[test]
fn a_refusal_clears_the_text() {
    assert_answers_are_found(|_, told, memory| {
        if told.cause().is_some() {
            memory.text.lent_mut().fill(0);
        }
    });
}

/// Clears the words if a query has no lists.
fn clear_words(told: &Told, memory: &mut Memory) {
    if told.word == Word::Lists as u8 && told.numbers[0] == 0 {
        memory.words.lent_mut().fill(0);
    }
}

#[test]
fn a_step_clears_words_behind_the_lists() {
    assert_answers_are_found(|given, told, memory| {
        if given.call == Call::Step {
            clear_words(told, memory);
        }
    });
}

#[test]
fn a_trusted_step_clears_words_behind_the_lists() {
    assert_answers_are_found(|given, told, memory| {
        if given.call == Call::TrustedStep {
            clear_words(told, memory);
        }
    });
}

#[test]
fn room_one_short_takes_a_part() {
    assert_causes_are_found(|given, cause, memory| {
        if given.call == Call::Write && *cause == 7 {
            if let Some(byte) = memory.out.lent_mut().first_mut() {
                *byte = 1;
            }
        }
    });
}

#[test]
fn just_enough_room_is_refused() {
    assert_causes_are_found(|given, cause, memory| {
        if given.call == Call::Write && *cause == 0 && memory.written == memory.out.length() {
            *cause = 7;
            memory.clone_from(given.before);
        }
    });
}

#[test]
fn a_refused_design_has_its_length_told() {
    assert_causes_are_found(|given, cause, memory| {
        if given.call == Call::Write && *cause == 7 {
            memory.written = 1;
        }
    });
}

#[test]
fn refused_sizes_are_0() {
    assert_causes_are_found(|given, cause, memory| {
        if given.call == Call::Sizes && *cause != 0 {
            memory.sizes = [0; 3];
        }
    });
}

#[test]
fn sizes_of_lists_not_of_words() {
    assert_causes_are_found(|given, cause, memory| {
        if given.call == Call::Sizes && *cause == 0 && given.script.get(given.at) == Some(&0x13) {
            let joins = given.script.get(given.at + 7).copied().unwrap_or(0);
            memory.sizes[1] /= u64::from(joins) + 1;
        }
    });
}

#[test]
fn sizes_of_what_the_place_does_not_have() {
    assert_causes_are_found(|given, cause, memory| {
        if given.call == Call::Sizes && *cause == 0 && given.at >= given.script.len() {
            memory.sizes[1] = 1;
        }
    });
}

#[test]
fn a_refused_opening_clears_the_marks() {
    assert_answers_are_found(|given, told, memory| {
        if given.call == Call::Open && told.cause().is_some_and(|cause| cause != 7) {
            memory.marks.lent_mut().fill(0);
        }
    });
}

#[test]
fn opening_leaves_table_0_behind_the_rows() {
    assert_answers_are_found(|given, told, memory| {
        if given.call == Call::Open && told.cause().is_none() {
            let tables = memory.tables.lent_mut().iter_mut();
            tables
                .filter(|table| **table == FREE)
                .for_each(|table| *table = 0);
        }
    });
}

#[test]
fn opening_clears_what_stands_past_the_sizes() {
    assert_answers_are_found(|given, told, memory| {
        if given.call == Call::Open && told.cause().is_none() {
            memory.cells.lent_mut()[ALL_CELLS..].fill(0);
        }
    });
}

#[test]
fn a_step_clears_what_stands_past_the_sizes() {
    assert_answers_are_found(|given, told, memory| {
        if given.call == Call::Step && told.cause().is_none() {
            memory.marks.lent_mut()[ROWS..].fill(0);
        }
    });
}

#[test]
fn something_is_written_behind_a_short_buffer() {
    assert_answers_are_found(|_, told, memory| {
        if told.cause() == Some(7) {
            if let Some(mark) = memory.marks.with_fence_mut().last_mut() {
                *mark = 0;
            }
        }
    });
}

#[test]
fn opening_looks_at_12() {
    assert_answers_are_found(|given, told, memory| {
        if given.call == Call::Open && is_unlawful(given) {
            *told = Told::stopped(Cause::Unlawful, 0, 0);
            memory.clone_from(given.before);
        }
    });
}

#[test]
fn the_length_of_the_script_before_12() {
    assert_answers_are_found(|given, told, _| {
        if told.cause() == Some(12) && given.script.len() > 65_536 {
            *told = Told::stopped(Cause::TooMany, 0, given.at);
        }
    });
}

#[test]
fn the_room_before_12() {
    assert_causes_are_found(|given, cause, memory| {
        if given.call == Call::Write && *cause == 12 && memory.out.length() == 0 {
            *cause = 7;
        }
    });
}

#[test]
fn cause_12_where_7_comes_first() {
    assert_answers_are_found(|given, told, _| {
        if told.cause() == Some(7) && given.call == Call::Step {
            told.numbers[0] = 12;
        }
    });
}

#[test]
fn the_place_of_the_command_with_12() {
    assert_answers_are_found(|given, told, _| {
        if told.cause() == Some(12) {
            told.place = given.at;
        }
    });
}

#[test]
fn reading_goes_on_after_12() {
    assert_answers_are_found(|_, told, _| {
        if told.cause() == Some(12) {
            told.more = 1;
        }
    });
}

#[test]
fn the_place_past_the_end_is_told() {
    assert_answers_are_found(|given, told, _| {
        if told.cause() == Some(1) && given.call == Call::Step {
            told.place = given.at;
        }
    });
}

#[test]
fn a_refusal_that_stops_moves_on() {
    assert_answers_are_found(|given, told, _| {
        if told.cause() == Some(2) && given.call == Call::Step {
            told.next += 1;
        }
    });
}

#[test]
fn numbers_behind_the_last_are_left() {
    assert_answers_are_found(|_, told, _| {
        told.numbers[usize::from(told.count)..].fill(9);
    });
}

#[test]
fn the_count_of_numbers_is_always_2() {
    assert_answers_are_found(|_, told, _| told.count = 2);
}

#[test]
fn writing_changes_the_state() {
    assert_causes_are_found(|given, _, memory| {
        if given.call == Call::Write {
            memory
                .marks
                .lent_mut()
                .iter_mut()
                .for_each(|mark| *mark = 0);
        }
    });
}

#[test]
fn a_trusted_step_forgets_the_mark_of_a_new_row() {
    assert_answers_are_found(|given, told, memory| {
        if given.call == Call::TrustedStep && told.word == Word::Changed as u8 {
            let before = given.before.marks.lent();
            let marks = memory.marks.lent_mut().iter_mut().zip(before);
            marks.for_each(|(mark, &before)| *mark = (*mark).min(before));
        }
    });
}

#[test]
fn a_run_names_desk_0_at_its_end() {
    let difference = find(&Wrong {
        runs: |memory| memory.held.lent_mut()[0] = 0,
        ..Wrong::default()
    });
    assert!(difference.is_some());
}
