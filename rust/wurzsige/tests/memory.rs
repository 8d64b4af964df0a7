//! Memory that comes from outside, desks in other threads, and answers that need more
//! room than is lent at once.

#![cfg(feature = "proved")]

mod common;

use std::thread;

use common::{all_examples, kept, kept_and_used, opened};
use wurzsige::{Answered, Cause, Column, Desk, Memory, Query, Refusal, Sizes, Totalled};

/// A desk with values, ranges and a free number in use.
fn desk() -> Desk {
    let script = all_examples().into_iter().find_map(|example| {
        let name = example.path.file_stem()?.to_str()? == "rows";
        name.then_some(example.script)
    });
    let script = script.expect("the example rows");
    let mut desk = Desk::open(&script).expect("a design");
    let mut at = desk.operations_at();
    for _ in 0..14 {
        at = desk.step(&script, at).next;
    }
    desk.remove_row(9).expect("a row");
    desk
}

fn is_refused(memory: Box<Memory>) -> bool {
    match Desk::from_memory(memory) {
        Ok(_) => false,
        Err(refusal) => {
            assert_eq!((refusal.cause, refusal.place), (Cause::Unlawful, None));
            true
        }
    }
}

#[test]
fn a_desk_that_comes_back_goes_on() {
    let mut desk = desk();
    let before = kept_and_used(&desk);
    let mut again = Desk::from_memory(desk.clone().into_memory()).expect("a desk");
    assert!(kept_and_used(&again) == before);
    assert_eq!(again.operations_at(), 0);
    let query = Query::new(Column::new(0, 1), 3).join(0, 0).join(1, 1);
    assert_eq!(again.query(&query), desk.query(&query));
    assert_eq!(again.drop_value(0, 3), desk.drop_value(0, 3));
    assert_eq!(again.write(), desk.write());
}

#[test]
fn damaged_memory_is_no_desk() {
    type Damage = fn(&mut Memory);
    let damages: [Damage; 16] = [
        |memory| memory.design_mut()[0] = 9,
        |memory| memory.design_mut()[3] = 200,
        |memory| memory.design_mut()[3] += 256,
        |memory| memory.design_mut()[114] = 1,
        |memory| memory.cells_mut()[8] = 101,
        |memory| memory.cells_mut()[2] = 1,
        |memory| memory.cells_mut()[4_095] = 1,
        |memory| memory.issues_mut()[2] = 1,
        |memory| memory.tables_mut()[0] = 3,
        |memory| memory.tables_mut()[511] = 0,
        |memory| memory.marks_mut()[0] = 0,
        |memory| memory.marks_mut()[0] = 2,
        |memory| memory.held_mut()[0] = 4,
        |memory| memory.held_mut()[1] = 65,
        |memory| memory.held_mut()[4] = 10,
        |memory| memory.held_mut()[357] = 1,
    ];
    let desk = desk();
    assert!(!is_refused(desk.clone().into_memory()));
    for (number, damage) in damages.iter().enumerate() {
        let mut memory = desk.clone().into_memory();
        damage(&mut memory);
        // A row of table 0 at a free number has to be blank, and is lawful then.
        assert_eq!(is_refused(memory), number != 9, "damage {number}");
    }
    assert!(is_refused(Memory::boxed()));
}

/// The catalog isn't the caller's to keep: whatever stands there, what is made of the
/// memory answers as before.
#[test]
fn a_damaged_catalog_does_no_harm() {
    type Damage = fn(&mut Memory);
    let damages: [Damage; 2] = [
        |memory| memory.catalog_mut().fill(u16::MAX),
        |memory| memory.keys_mut().fill(u64::MAX),
    ];
    let query = Query::new(Column::new(0, 1), 3).join(0, 0).join(1, 1);
    let mut desk = desk();
    for damage in damages {
        let mut memory = desk.clone().into_memory();
        damage(&mut memory);
        let mut again = Desk::from_memory(memory).expect("a desk");
        assert_eq!(again.query(&query), desk.query(&query));
    }
}

#[test]
fn a_clone_is_a_desk_of_its_own() {
    let mut desk = desk();
    let before = kept(&desk);
    let mut clone = desk.clone();
    clone.drop_value(0, 3).expect("a drop");
    clone.remove_row(0).expect("a row");
    clone.name_desk(2).expect("a desk");
    assert!(kept(&desk) == before);
    desk.drop_value(0, 3).expect("a drop");
    assert_eq!(
        clone.drop_value(0, 3).map_err(|r| r.cause),
        Err(Cause::NotHeld)
    );
}

#[test]
fn desks_work_in_threads_of_their_own() {
    let desk = desk();
    let work = |mut desk: Desk| {
        thread::spawn(move || {
            let query = Query::new(Column::new(0, 1), 3).join(0, 0);
            for _ in 0..50 {
                desk.query(&query).expect("an answer");
                desk.drop_value(0, 3).expect("a drop");
            }
            desk
        })
    };
    let [one, other] = [desk.clone(), desk].map(work);
    let [one, other] = [one, other].map(|thread| thread.join().expect("an end"));
    assert!(kept(&one) == kept(&other));
}

/// 512 rows of one cell 1, linked to themselves: each join multiplies the lists by 512.
fn crowd() -> Desk {
    let rows = "row 0 1\n".repeat(512);
    let design = "table 1\nconstraint 0.0 -> 0.0\nfilling 0.0 1..1\n";
    opened(&format!("{design}{rows}end\n"))
}

#[test]
fn a_query_is_lent_what_it_needs_up_to_a_limit() {
    let mut desk = crowd();
    let mut query = Query::new(Column::new(0, 0), 1);
    let lists = |answered| match answered {
        Ok(Answered::Lists(lists)) => Ok(lists.len()),
        Ok(Answered::Sent) => panic!("it is held"),
        Err(Refusal { cause, .. }) => Err(cause),
    };
    assert_eq!(
        lists(desk.query_within(&query, 511)),
        Err(Cause::AnswerTooLong)
    );
    assert_eq!(lists(desk.query_within(&query, 512)), Ok(512));
    query = query.join(0, 0);
    let needed = 2 * 512 * 512;
    assert_eq!(
        lists(desk.query_within(&query, 4_096)),
        Err(Cause::AnswerTooLong)
    );
    assert_eq!(
        lists(desk.query_within(&query, needed - 1)),
        Err(Cause::AnswerTooLong)
    );
    assert_eq!(lists(desk.query_within(&query, needed)), Ok(512 * 512));
    let Ok(Answered::Lists(all)) = desk.query(&query) else {
        panic!("half of what `query` lends");
    };
    assert_eq!(
        (all.len(), all.positions(), all.is_empty()),
        (512 * 512, 2, false)
    );
    assert_eq!(
        (&all[0], &all[513], &all[512 * 512 - 1]),
        (&[0, 0][..], &[1, 1][..], &[511, 511][..])
    );
    query = query.join(1, 0).join(2, 0).join(3, 0);
    assert_eq!(lists(desk.query(&query)), Err(Cause::AnswerTooLong));
    assert_eq!(desk.total(&query, 0, 0), Ok(Totalled::Total(1 << 45)));
    // More than there is of memory: it is refused, not tried.
    assert_eq!(
        lists(desk.query_within(&query, usize::MAX)),
        Err(Cause::AnswerTooLong)
    );
}

#[test]
fn sizes_tell_what_a_step_would_write() {
    let mut desk = crowd();
    let operations = "query 0.0 = 1 join 0 by 0 join 1 by 0 join 2 by 0 join 3 by 0\nreason 511\n";
    let script = notation::assemble(operations).expect("a script");
    let design = desk.write().len() as u64;
    let sizes = |words, text| (design, words, text);
    let told = |Sizes {
                    bytes, words, text, ..
                }| (bytes, words, text);
    let reason = script.len() - 3;
    let before = kept(&desk);
    assert_eq!(told(desk.sizes(&script, 0)), sizes(5 << 45, 0));
    assert_eq!(told(desk.sizes(&script, reason)), sizes(0, 0));
    assert_eq!(told(desk.sizes(&script, 1_000)), sizes(0, 0));
    assert!(kept(&desk) == before);
    desk.refer(0, 1).expect("a load");
    let sentence = desk.step(&script, reason).answer.to_string();
    assert_eq!(
        told(desk.sizes(&script, reason)),
        sizes(0, sentence.len() as u64)
    );
}
