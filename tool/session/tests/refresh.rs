//! New snapshots: what came, went and changed, and what is answered when one can't be had or no longer fits.

mod support;

use std::rc::Rc;

use session::{
    Answered, Ground, Held, Identity, Issued, Probed, Referred, Refreshed, Session, Trouble, Wanted,
};
use source::{Failure, Value};
use support::laboratory::{
    event, issued, laboratory, place, question, recording, subject, text, value,
};
use support::memory::Memory;

#[test]
fn a_refresh_follows_every_kind_of_change() {
    let (design, rows) = laboratory();
    let mut memory = Memory::new(&design, &rows);
    let mut session = Session::open(&design, &mut memory).expect("a session");
    session.load(0, &value("nord")).expect("it fits");
    {
        let rows = &mut *rows.borrow_mut();
        rows[2] = subject("s2", 0, "nord", "Cy"); // moves into the ward, with recording 13 and its event
        rows[1].shown = vec![Some("Bob".into())]; // is only called otherwise
        rows[5] = recording(12, Some(("s3", 0))); // leaves, with its event
        rows[8] = event(10, -1, Some(31), "z"); // changes
        rows.push(event(11, 7, Some(1), "z")); // comes
        rows.remove(9); // goes
    }
    let total = |session: &mut Session| {
        session
            .ask(question(&design, "Seconds of a ward"), &issued("nord"))
            .expect("it is here")
    };
    assert_eq!(
        total(&mut session),
        Answered::Total(42),
        "the snapshot is the old one"
    );
    let refreshed = session.refresh().expect("it can be read");
    assert_eq!(
        refreshed,
        Refreshed::Kept {
            came: 4,
            went: 3,
            changed: 2
        }
    );
    assert_eq!(total(&mut session), Answered::Total(31 + 1 + 4));
    let of = place(&design, "recording.subject");
    let second = Issued {
        value: Value::Text("s1".into()),
        issue: 1,
    };
    let certain = Probed::Ground {
        ground: Ground::Linked,
        rows: 0,
    };
    assert_eq!(session.probe(of, &second).expect("a probe"), certain);
    let identity = Identity {
        table: 0,
        key: second,
    };
    let row = session.number(&identity).expect("it is here");
    assert_eq!(session.row(row).expect("a row").label, "subject Bob");
    assert_eq!(
        session.refresh().expect("it can be read"),
        Refreshed::Kept {
            came: 0,
            went: 0,
            changed: 0
        }
    );
}

#[test]
fn after_a_failed_refresh_nothing_is_answered_until_one_succeeds() {
    let (design, rows) = laboratory();
    let mut memory = Memory::new(&design, &rows);
    let left = Rc::clone(&memory.left);
    let mut session = Session::open(&design, &mut memory).expect("a session");
    session.load(0, &value("nord")).expect("it fits");
    rows.borrow_mut().push(event(11, 7, Some(1), "z"));
    for reads in [0, 1, 4] {
        left.set(reads);
        assert!(matches!(
            session.refresh(),
            Err(Trouble::Failed(Failure::Unreadable(_)))
        ));
        let asked = session.ask(question(&design, "Seconds of a ward"), &issued("nord"));
        assert!(matches!(asked, Err(Trouble::Stale(_))), "{asked:?}");
        let stale = |answer: bool| assert!(answer, "something was answered");
        stale(matches!(
            session.load(0, &value("west")),
            Err(Trouble::Stale(_))
        ));
        stale(matches!(
            session.probe(place(&design, "subject.ward"), &issued("nord")),
            Err(Trouble::Stale(_))
        ));
        stale(matches!(session.reason(0), Err(Trouble::Stale(_))));
        stale(matches!(
            session.opener(place(&design, "subject.ward"), &issued("x")),
            Err(Trouble::Stale(_))
        ));
    }
    left.set(usize::MAX);
    assert_eq!(
        session.refresh().expect("it can be read"),
        Refreshed::Kept {
            came: 1,
            went: 0,
            changed: 0
        }
    );
    let total = session
        .ask(question(&design, "Seconds of a ward"), &issued("nord"))
        .expect("it is here");
    assert_eq!(total, Answered::Total(43));
}

/// A subject of 300 nights leaves the ward, and another one comes. The nights of the first are still fetched, and there is no room for both; but nothing needs them.
#[test]
fn a_refresh_has_room_for_what_is_needed() {
    let (design, rows) = laboratory();
    let ill = |ward: &str, id: &str| subject(id, 0, ward, "");
    let nights = |from: i64, id: &'static str| {
        (from..from + 300).map(move |night| recording(night, Some((id, 0))))
    };
    rows.borrow_mut()
        .extend([ill("sued", "a"), ill("ost", "b")]);
    rows.borrow_mut()
        .extend(nights(1_000, "a").chain(nights(2_000, "b")));
    let mut memory = Memory::new(&design, &rows);
    let mut session = Session::open(&design, &mut memory).expect("a session");
    session.load(0, &value("sued")).expect("it fits");
    session.name_desk(3).expect("a desk");
    let range = Wanted::Range { low: 10, high: 11 };
    session.load(1, &range).expect("it fits");
    let held = session.held();
    rows.borrow_mut()
        .retain(|row| !(row.table == 0 && ["a", "b"].iter().any(|id| row.values[0] == text(id))));
    rows.borrow_mut()
        .extend([ill("ost", "a"), ill("sued", "b")]);
    let refreshed = session.refresh().expect("it can be read");
    let kept = Refreshed::Kept {
        came: 301,
        went: 301,
        changed: 0,
    };
    assert_eq!(refreshed, kept);
    assert_eq!((session.held(), session.named_desk()), (held, 3));
    let of = place(&design, "recording.subject");
    let certain = Probed::Ground {
        ground: Ground::Linked,
        rows: 300,
    };
    assert_eq!(session.probe(of, &issued("b")).expect("a probe"), certain);
    assert_eq!(
        session.probe(of, &issued("a")).expect("a probe"),
        Probed::Sent
    );
}

#[test]
fn a_refresh_past_512_rows_drops_all_and_says_so() {
    let (design, rows) = laboratory();
    let mut memory = Memory::new(&design, &rows);
    let mut session = Session::open(&design, &mut memory).expect("a session");
    session.name_desk(2).expect("a desk");
    session.load(0, &value("nord")).expect("it fits");
    rows.borrow_mut()
        .extend((0..600).map(|onset| event(11, onset, None, "z")));
    let refreshed = session.refresh().expect("it can be read");
    let dropped = vec![Held {
        desk: 2,
        load: 0,
        wanted: value("nord"),
    }];
    assert_eq!(refreshed, Refreshed::TooLarge { rows: 608, dropped });
    assert_eq!(
        (
            session.cached().count(),
            session.held().len(),
            session.named_desk()
        ),
        (0, 0, 2)
    );
    assert_eq!(
        session.load(0, &value("west")).expect("it fits"),
        Referred::Loaded { rows: 3, rounds: 2 }
    );
}
