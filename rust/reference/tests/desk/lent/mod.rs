//! Lent memory: causes 7 and 12, and what the calls write and tell.

mod calls;
mod flaws;
mod sizes;

use crate::bytes::*;
use reference::lent::{open, step, Flaw, Lent, Told};

/// Document 01's design A with a second filling, of 2.1, whose candidates are 1 to 1000.
fn design() -> Vec<u8> {
    [
        table(2, 0b01),
        table(2, 0b01),
        table(2, 0),
        constraint((0, 0), (1, 1)),
        constraint((1, 0), (2, 0)),
        filling((0, 1), 1, 99),
        filling((2, 1), 1, 1000),
        row(0, &[7, 3]),
        row(0, &[8, 3]),
        row(0, &[9, 4]),
        row(1, &[20, 7]),
        row(1, &[21, 9]),
        row(2, &[20, 5]),
        row(2, &[20, 6]),
        row(2, &[21, 5]),
        end(),
    ]
    .concat()
}

/// Desk 0 holds 3, and desk 1, which is named, holds it too and two ranges without rows:
/// rows 0, 1, 3, 5 and 6 are cached.
fn sound() -> Lent {
    let operations = [
        refer(0, 3),
        desk(1),
        refer(0, 3),
        hold(1, 10, 20),
        hold(1, 30, 40),
    ];
    after(&design(), &operations.concat())
}

/// The memory that a script leaves.
fn after(design: &[u8], operations: &[u8]) -> Lent {
    let script = [design, operations].concat();
    let mut lent = Lent::zeros();
    let mut place = open(&script, &mut lent).next;
    while place < script.len() {
        let told = step(&script, place, &mut lent, &mut [0; 64], &mut [0; 256]);
        assert_eq!(told.cause(), None, "at {place}");
        place = told.next;
    }
    lent
}

/// A step that is a script by itself.
fn stepped(lent: &mut Lent, operation: &[u8]) -> Told {
    step(operation, 0, lent, &mut [0; 64], &mut [0; 256])
}

/// The flaw that the sound memory has after a change.
fn flaw_after(change: impl Fn(&mut Lent)) -> Option<Flaw> {
    let mut lent = sound();
    change(&mut lent);
    lent.desk().err()
}
