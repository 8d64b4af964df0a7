//! What the calls write and tell, and in which order they look at what is wrong.

use reference::lent::{open, run, step, write, Lent, Told, Word};
use reference::refusal::Cause;

use super::{after, design, sound, stepped};
use crate::bytes::*;

/// Memory in which nothing is lawful.
fn unlawful() -> Lent {
    let mut lent = Lent::zeros();
    lent.design.fill(300);
    lent
}

#[test]
fn opening_lays_out_the_design_and_its_rows() {
    let mut lent = unlawful();
    lent.marks.fill(1);
    let told = open(&design(), &mut lent);
    assert_eq!((told.word, told.count), (Word::Design as u8, 4));
    assert_eq!(told.numbers[..5], [3, 2, 2, 8, 0]);
    assert_eq!((told.place, told.next, told.more), (0, design().len(), 1));
    assert_eq!(lent.design[..5], [3, 2, 2, 2, 1]);
    assert_eq!(lent.design[83..91], [0, 1, 1, 99, 2, 1, 1, 1000]);
    assert_eq!(lent.cells[8 * 7..8 * 8], [21, 5, 0, 0, 0, 0, 0, 0]);
    assert_eq!(lent.cells[8 * 8..], [0; 8 * 504]);
    assert_eq!(lent.tables[6..9], [2, 2, 255]);
    assert_eq!(lent.marks, [0; 512]);
    assert_eq!(lent.held, [0; 358]);
}

#[test]
fn opening_leaves_what_stands_past_the_sizes() {
    let mut lent = unlawful();
    lent.cells.extend([5, 6]);
    lent.tables.push(7);
    open(&design(), &mut lent);
    assert_eq!(lent.cells[4096..], [5, 6]);
    assert_eq!(lent.tables[512..], [7]);
}

#[test]
fn a_refused_opening_leaves_everything() {
    for (script, cause, place) in [
        (vec![], Cause::TooFewBytes, 0),
        (table(2, 0), Cause::TooFewBytes, 3),
        (vec![0], Cause::UnknownCommand, 0),
        (refer(0, 3), Cause::OutOfOrder, 0),
        ([table(2, 0), table(9, 0)].concat(), Cause::WrongOperand, 3),
        (vec![0; 65_537], Cause::TooMany, 0),
    ] {
        let mut lent = unlawful();
        assert_eq!(open(&script, &mut lent), Told::stopped(cause, place, 0));
        assert_eq!(lent, unlawful());
    }
}

#[test]
fn short_buffers_come_before_the_script() {
    let mut lent = Lent::default();
    let refused = Told::stopped(Cause::TooShort, 0, 0);
    assert_eq!(open(&vec![0; 65_537], &mut lent), refused);
    assert_eq!(lent, Lent::default());
}

#[test]
fn short_buffers_come_before_what_is_unlawful() {
    let mut lent = unlawful();
    lent.held.pop();
    let told = stepped(&mut lent, &[]);
    assert_eq!(told, Told::stopped(Cause::TooShort, 0, 0));
    assert_eq!(write(&lent, &mut []), Err(Cause::TooShort));
}

#[test]
fn what_is_unlawful_comes_before_the_script_and_the_room() {
    let mut lent = unlawful();
    let refused = Told::stopped(Cause::Unlawful, 0, 70_000);
    let told = step(&vec![0; 65_537], 70_000, &mut lent, &mut [], &mut []);
    assert_eq!(told, refused);
    assert_eq!(write(&lent, &mut []), Err(Cause::Unlawful));
}

#[test]
fn a_script_that_is_too_long_stops_before_its_commands() {
    let mut script = refer(0, 3);
    script.resize(65_537, 0);
    let mut lent = sound();
    let told = step(&script, 5, &mut lent, &mut [], &mut []);
    assert_eq!(told, Told::stopped(Cause::TooMany, 0, 5));
    script.pop();
    let told = step(&script, 0, &mut lent, &mut [], &mut []);
    assert_eq!(told.word, Word::Held as u8);
}

#[test]
fn a_step_where_no_command_begins() {
    let script = refer(0, 3);
    for at in [6, 7, usize::MAX] {
        let told = step(&script, at, &mut sound(), &mut [], &mut []);
        assert_eq!(told, Told::stopped(Cause::TooFewBytes, 6, at));
    }
    let told = step(&script[..5], 0, &mut sound(), &mut [], &mut []);
    assert_eq!(told, Told::stopped(Cause::TooFewBytes, 0, 0));
    let told = step(&[1, 2, 0xff], 2, &mut sound(), &mut [], &mut []);
    assert_eq!(told, Told::stopped(Cause::UnknownCommand, 2, 2));
}

#[test]
fn after_another_refusal_reading_goes_on() {
    let script = [even(), refer(9, 3), even()].concat();
    let mut lent = sound();
    let told = step(&script, 1, &mut lent, &mut [], &mut []);
    assert_eq!(told, Told::refused(Cause::WrongOperand, 1, 7));
    assert_eq!((told.more, told.next), (1, 7));
    assert_eq!(lent, sound());
}

#[test]
fn held_values_stand_in_order_of_reference() {
    let lent = after(
        &design(),
        &[refer(0, 9), refer(1, 4), refer(0, 3), drop(1, 4)].concat(),
    );
    assert_eq!(lent.held[..12], [0, 2, 0, 0, 9, 0, 0, 0, 3, 0, 0, 0]);
}

#[test]
fn a_value_with_an_issue_and_a_range_of_another_desk() {
    let operations = [with_issue(255, &refer(1, 4)), desk(3), hold(1, 5, 5)];
    let lent = after(&design(), &operations.concat());
    assert_eq!(lent.held[..7], [3, 1, 0, 1, 4, 255, 0]);
    assert_eq!(lent.held[258 + 75..258 + 80], [1, 1, 5, 5, 0]);
    assert_eq!(lent.marks[5..9], [1, 0, 1, 0]);
}

#[test]
fn rows_come_and_go() {
    let mut lent = sound();
    let told = stepped(&mut lent, &put_with_issues(511, 0, &[(10, 0), (3, 0)]));
    assert_eq!((told.word, told.count), (Word::Changed as u8, 2));
    assert_eq!(told.numbers[..3], [1, 0, 0]);
    assert_eq!(lent.cells[4088..4091], [10, 3, 0]);
    assert_eq!((lent.tables[511], lent.marks[511]), (0, 1));
    stepped(&mut lent, &take(511));
    assert_eq!(lent, sound());
}

#[test]
fn a_query_writes_its_words_and_no_others() {
    let mut lent = sound();
    let query = query((0, 1), 3, &[(0, 0), (1, 1)]);
    let mut words = [9; 8];
    let told = step(&query, 0, &mut lent, &mut words, &mut []);
    assert_eq!((told.word, told.numbers[0]), (Word::Lists as u8, 2));
    assert_eq!(words, [0, 3, 5, 0, 3, 6, 9, 9]);
    let mut words = [9; 5];
    let told = step(&query, 0, &mut lent, &mut words, &mut []);
    assert_eq!(told, Told::refused(Cause::AnswerTooLong, 0, 16));
    assert_eq!(words, [9; 5]);
    assert_eq!(lent, sound());
}

#[test]
fn a_reason_writes_its_text_and_no_more() {
    let mut text = [b'.'; 40];
    let told = step(&reason(0), 0, &mut sound(), &mut [], &mut text);
    let sentence = b"row 0 by value 3 of filling 0";
    assert_eq!(told.numbers[0], sentence.len() as u64);
    assert!(text.starts_with(sentence));
    assert!(text[sentence.len()..].iter().all(|&byte| byte == b'.'));
}

#[test]
fn a_run_leaves_what_its_steps_leave() {
    let queries = [
        query((0, 1), 3, &[(0, 0), (1, 1)]),
        query((0, 1), 4, &[]),
        refer(9, 1),
        reason(2),
        hold(1, 5, 6),
    ];
    let script = [queries.concat(), vec![0xff], drop(0, 3)].concat();
    let (mut lent, mut words, mut text) = (sound(), [9; 7], [9; 40]);
    run(&script, 0, &mut lent, &mut words, &mut text);
    assert_eq!(words, [2, 3, 5, 0, 3, 6, 9]);
    assert!(text.starts_with(b"row 2 by value 4 of filling 0\x09"));
    let mut stepped = sound();
    let mut place = 0;
    for _ in 0..5 {
        place = step(&script, place, &mut stepped, &mut [0; 7], &mut [0; 40]).next;
    }
    assert_eq!(lent, stepped);
    assert_eq!(lent.marks[..8], [1; 8]);
}

#[test]
fn an_opened_design_is_written_as_it_was() {
    let design = [
        table(3, 0b100),
        constraint((0, 0), (0, 1)),
        filling((0, 1), 1, u32::MAX),
        row(0, &[1, 2, 3]),
        row_with_issues(0, &[(1, 0), (2, 255), (3, 7)]),
        row(0, &[0, 0, 0]),
        end(),
    ]
    .concat();
    let lent = after(&design, &[]);
    let mut out = vec![9; design.len() + 1];
    assert_eq!(write(&lent, &mut out), Ok(design.len()));
    assert_eq!(out, [&design[..], &[9]].concat());
    assert_eq!(write(&lent, &mut out[..design.len()]), Ok(design.len()));
    let mut short = vec![9; design.len() - 1];
    assert_eq!(write(&lent, &mut short), Err(Cause::TooShort));
    assert_eq!(short, vec![9; design.len() - 1]);
}

#[test]
fn rows_left_are_written_in_rising_number() {
    let lent = after(&design(), &[take(0), take(3), put(0, 2, &[4, 4])].concat());
    let mut out = [0; 1024];
    let length = write(&lent, &mut out).expect("room");
    let head = design().len() - 8 * 34 - 1;
    let rows = [
        row(2, &[4, 4]),
        row(0, &[8, 3]),
        row(0, &[9, 4]),
        row(1, &[21, 9]),
        row(2, &[20, 5]),
        row(2, &[20, 6]),
        row(2, &[21, 5]),
        end(),
    ];
    assert_eq!(out[..length], [&design()[..head], &rows.concat()].concat());
}
