//! A session over a small database in memory: what is fetched, what is answered, and that whatever goes wrong leaves it as it was.

mod support;

use std::rc::Rc;

use design::Word;
use session::{
    Answered, Brought, By, Dropped, Ground, Held, Identity, Issued, Opener, Probed, Referred,
    Session, Trouble, Wanted,
};
use source::{Failure, Value};
use support::laboratory::{issued, keys, laboratory, place, question, subject, value};
use support::memory::Memory;
use testing::Recorded;

#[test]
fn a_ward_is_loaded_with_all_that_it_brings() {
    let (design, rows) = laboratory();
    let mut memory = Memory::new(&design, &rows);
    let mut session = Session::open(&design, &mut memory).expect("a session");
    let loaded = session.load(0, &value("nord")).expect("it fits");
    assert_eq!(loaded, Referred::Loaded { rows: 9, rounds: 2 });
    assert_eq!(
        session.load(0, &value("nord")).expect("it fits"),
        Referred::Held
    );
    assert_eq!((session.cached().count(), session.rows_read()), (9, 9));

    let lists = session
        .ask(question(&design, "Events of a ward"), &issued("nord"))
        .expect("it is here");
    let expected = [
        ["s1", "10", "10|-1"],
        ["s1", "10", "10|2"],
        ["s1", "10", "10|3"],
        ["s1#1", "12", "12|1"],
    ];
    assert_eq!(keys(&session, &lists), expected);
    let total = session
        .ask(question(&design, "Seconds of a ward"), &issued("nord"))
        .expect("it is here");
    assert_eq!(
        total,
        Answered::Total(42),
        "a measure's 0 and NULL add nothing"
    );

    let of = place(&design, "recording.subject");
    let second = Issued {
        value: Value::Text("s1".into()),
        issue: 1,
    };
    let certain = |rows| Probed::Ground {
        ground: Ground::Linked,
        rows,
    };
    assert_eq!(
        session.probe(of, &issued("s1")).expect("a probe"),
        certain(2)
    );
    assert_eq!(session.probe(of, &second).expect("a probe"), certain(1));
    assert_eq!(
        session.probe(of, &issued("s2")).expect("a probe"),
        Probed::Sent
    );
    let within = place(&design, "event.recording");
    assert_eq!(
        session
            .probe(within, &Value::Number(11).into())
            .expect("a probe"),
        certain(0)
    );

    let brought = session.brought(session.cached()).expect("reasons");
    let counted = |table, by, round, rows| Brought {
        table,
        by,
        round,
        rows,
    };
    assert_eq!(
        brought,
        [
            counted(0, By::Load(0), 0, 2),
            counted(1, By::Link(0), 1, 3),
            counted(2, By::Link(1), 2, 4)
        ]
    );
    assert_eq!(
        session.drop_load(0, &value("nord")).expect("it is held"),
        Dropped { rows: 9 }
    );
    assert_eq!(session.cached().count(), 0);
}

#[test]
fn a_question_loads_what_it_asks_for() {
    let (design, rows) = laboratory();
    let mut memory = Memory::new(&design, &rows);
    let mut session = Session::open(&design, &mut memory).expect("a session");
    let total = session
        .ask(question(&design, "Seconds of a ward"), &issued("west"))
        .expect("it fits");
    assert_eq!(total, Answered::Total(4));
    let held = Held {
        desk: 0,
        load: 0,
        wanted: value("west"),
    };
    assert_eq!(session.held(), std::slice::from_ref(&held));
    let needs = session.needs(&held).expect("it is held");
    assert_eq!((needs.rows, needs.alone), (3, 3));
    let nobody = session
        .ask(question(&design, "Events of a ward"), &issued("ost"))
        .expect("it fits");
    assert_eq!(
        keys(&session, &nobody),
        [[""; 0]; 0],
        "a ward without subjects is complete"
    );
    let sent = session
        .ask(question(&design, "A scorer's events"), &issued("x"))
        .expect("it is sent");
    assert_eq!(sent, Answered::Sent);
}

#[test]
fn nights_are_loaded_by_ranges_and_within_their_bounds() {
    let (design, rows) = laboratory();
    let mut memory = Memory::new(&design, &rows);
    let mut session = Session::open(&design, &mut memory).expect("a session");
    let range = session.wanted(1, &Word::plain("10..12")).expect("a range");
    assert_eq!(range, Wanted::Range { low: 10, high: 12 });
    assert_eq!(
        session.load(1, &range).expect("it fits"),
        Referred::Loaded { rows: 7, rounds: 1 }
    );
    let ground = Probed::Ground {
        ground: Ground::Held,
        rows: 1,
    };
    let night = place(&design, "recording.id");
    assert_eq!(
        session
            .probe(night, &Value::Number(11).into())
            .expect("a probe"),
        ground
    );
    let beyond = session.wanted(1, &Word::plain("5001")).expect("a number");
    assert_eq!(
        session.load(1, &beyond).expect("an answer"),
        Referred::NoCandidate
    );
    assert_eq!(
        session.drop_load(1, &range).expect("it is held"),
        Dropped { rows: 7 }
    );
    let refused = session
        .drop_load(1, &range)
        .expect_err("it isn't held any more");
    assert!(matches!(refused, Trouble::Refused(refusal) if refusal.cause.number() == 10));
    let dots = session.wanted(0, &Word::plain("a..b")).expect("a text");
    assert_eq!(dots, value("a..b"), "only numbers have ranges");
}

#[test]
fn a_reason_goes_back_to_the_load() {
    let (design, rows) = laboratory();
    let mut memory = Memory::new(&design, &rows);
    let mut session = Session::open(&design, &mut memory).expect("a session");
    session.load(0, &value("nord")).expect("it fits");
    let key = session.read(place(&design, "event.name"), &Word::plain("12|1"));
    assert!(key.is_ok(), "a key needn't take a cell");
    let identity = Identity {
        table: 2,
        key: key.expect("a key"),
    };
    let row = session.number(&identity).expect("it is here");
    let reason = session
        .reason(row)
        .expect("a reason")
        .expect("it is cached");
    let steps: Vec<(usize, &str)> = reason
        .steps
        .iter()
        .map(|step| {
            (
                step.link,
                session.row(step.from).expect("a row").label.as_str(),
            )
        })
        .collect();
    assert_eq!(steps, [(1, "recording 12"), (0, "subject Bo")]);
    assert_eq!((reason.load, reason.wanted), (0, value("nord")));
    assert!(session.is_there(&identity).expect("it can be read"));
    let elsewhere = Identity {
        table: 1,
        key: Value::Number(13).into(),
    };
    assert_eq!(session.number(&elsewhere), None);
}

#[test]
fn an_opener_is_found_in_rows_that_are_not_here() {
    let (design, rows) = laboratory();
    let mut memory = Memory::new(&design, &rows);
    let mut session = Session::open(&design, &mut memory).expect("a session");
    let of = place(&design, "recording.subject");
    let opener = session.opener(of, &issued("s2")).expect("it can be read");
    assert_eq!(
        opener,
        Opener::Load {
            load: 0,
            value: issued("west")
        }
    );
    assert_eq!(
        (session.cached().count(), session.rows_read()),
        (0, 0),
        "nothing is kept of the search"
    );
    let scorer = place(&design, "event.scorer");
    assert_eq!(
        session
            .opener(scorer, &issued("x"))
            .expect("it can be read"),
        Opener::NoneKnown
    );
    session.load(0, &value("west")).expect("it fits");
    assert_eq!(
        session.opener(of, &issued("s2")).expect("it can be read"),
        Opener::Open
    );
}

/// After a failure at any of the fetches the session answers as it did before.
#[test]
fn a_failure_changes_nothing() {
    let (design, rows) = laboratory();
    let mut failures = 0;
    for left in 0.. {
        let mut memory = Memory::new(&design, &rows);
        let counter = Rc::clone(&memory.left);
        let mut session = Session::open(&design, &mut memory).expect("a session");
        session.load(0, &value("west")).expect("it fits");
        let before: Vec<u16> = session.cached().collect();
        counter.set(left);
        let loaded = session.load(0, &value("nord"));
        if loaded.is_ok() {
            break;
        }
        failures += 1;
        assert!(matches!(
            loaded,
            Err(Trouble::Failed(Failure::Unreadable(_)))
        ));
        assert_eq!(session.cached().collect::<Vec<_>>(), before);
        assert_eq!((session.held().len(), session.rows_read()), (1, 3));
        counter.set(usize::MAX);
        let loaded = session
            .load(0, &value("nord"))
            .expect("it can be read again");
        assert_eq!(loaded, Referred::Loaded { rows: 9, rounds: 2 });
    }
    assert_eq!(failures, 6, "the ward, two subjects, three recordings");
}

#[test]
fn a_drop_gives_numbers_back_and_no_fetch_is_made_twice() {
    let (design, rows) = laboratory();
    let mut memory = Memory::new(&design, &rows);
    let mut recorded = Recorded::new(&mut memory);
    let fetched = recorded.fetched();
    let mut session = Session::open(&design, &mut recorded).expect("a session");
    session.load(0, &value("nord")).expect("it fits");
    let made = fetched.borrow().len();
    session.drop_load(0, &value("nord")).expect("it is held");
    session.load(0, &value("nord")).expect("it fits");
    assert_eq!(fetched.borrow().len(), made, "the rows were still here");
    let distinct: std::collections::HashSet<String> = fetched
        .borrow()
        .iter()
        .map(|condition| format!("{condition:?}"))
        .collect();
    assert_eq!(distinct.len(), made);
}

/// Wards of 300 rows: one fits, two don't, unless the first is dropped.
#[test]
fn past_512_rows_nothing_is_loaded() {
    let (design, rows) = laboratory();
    let wards = (0..3).flat_map(|ward| {
        let name = format!("ward {ward}");
        (0..300).map(move |id| subject(&format!("{ward}/{id}"), 0, &name, ""))
    });
    rows.borrow_mut().extend(wards);
    let mut memory = Memory::new(&design, &rows);
    let mut session = Session::open(&design, &mut memory).expect("a session");
    session.load(0, &value("ward 0")).expect("it fits");
    let Err(Trouble::TooLarge(large)) = session.load(0, &value("ward 1")) else {
        panic!("600 rows were loaded");
    };
    assert_eq!(large.rows, 600);
    assert_eq!(
        large.brought,
        [Brought {
            table: 0,
            by: By::Load(0),
            round: 0,
            rows: 600
        }]
    );
    assert_eq!((session.cached().count(), session.held().len()), (300, 1));
    let of = place(&design, "subject.ward");
    assert_eq!(
        session.probe(of, &issued("ward 1")).expect("a probe"),
        Probed::Sent
    );
    session.drop_load(0, &value("ward 0")).expect("it is held");
    for ward in ["ward 1", "ward 2"] {
        let loaded = session.load(0, &value(ward)).expect("there is room");
        assert_eq!(
            loaded,
            Referred::Loaded {
                rows: 300,
                rounds: 0
            }
        );
        session.drop_load(0, &value(ward)).expect("it is held");
    }
}

#[test]
fn a_column_without_a_cell_is_told_with_what_to_write() {
    let (design, rows) = laboratory();
    let mut memory = Memory::new(&design, &rows);
    let mut session = Session::open(&design, &mut memory).expect("a session");
    let onset = place(&design, "event.onset");
    let told = session
        .probe(onset, &Value::Number(1).into())
        .expect_err("it takes no cell");
    assert_eq!(
        told.to_string(),
        "event.onset takes no cell, since no link, load, question or total uses it: add a line `question \"..\" event.onset = ?` to the design"
    );
}
