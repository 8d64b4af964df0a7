//! Libraries and feeders with one fault each, which the comparison has to find; and the
//! second implementation itself, in which it finds none.

use reference::lent::{Lent, Told};
use slices::functions::{self, Case};
use slices::library::{FetchWords, Library, SecondImplementation, VerdictWords};
use slices::session;
use slices::tally::Tally;

const STATES: u64 = 1_500;
const SESSIONS: u64 = 12;
const ROWS: usize = 1_500;

/// A change of what `missing` tells.
type Missing = fn(told: u8, fetch: &mut FetchWords) -> u8;

/// A change of what the verdicts tell.
type Verdicts = fn(told: u8, verdicts: &mut VerdictWords) -> u8;

/// The second implementation with one fault.
#[derive(Clone, Copy)]
struct Wrong {
    missing: Missing,
    trusted: Missing,
    verdicts: Verdicts,
    /// Whether a command is lost: it is answered, and has changed nothing.
    loses: fn(&[u8]) -> bool,
}

const RIGHT: Wrong = Wrong {
    missing: |told, _| told,
    trusted: |told, _| told,
    verdicts: |told, _| told,
    loses: |_| false,
};

impl Library for Wrong {
    fn name(&self) -> &str {
        "a wrong library"
    }

    fn step(&self, command: &[u8], lent: &mut Lent, words: &mut [u32]) -> Told {
        if (self.loses)(command) {
            let mut copy = lent.clone();
            return SecondImplementation.step(command, &mut copy, words);
        }
        SecondImplementation.step(command, lent, words)
    }

    fn missing(&self, lent: &Lent, fetches: &[u32], count: usize, fetch: &mut FetchWords) -> u8 {
        let told = SecondImplementation.missing(lent, fetches, count, fetch);
        (self.missing)(told, fetch)
    }

    fn missing_trusted(
        &self,
        lent: &Lent,
        fetches: &[u32],
        count: usize,
        fetch: &mut FetchWords,
    ) -> u8 {
        let told = SecondImplementation.missing_trusted(lent, fetches, count, fetch);
        (self.trusted)(told, fetch)
    }

    fn verdicts(&self, design: &[u32], verdicts: &mut VerdictWords) -> u8 {
        let told = SecondImplementation.verdicts(design, verdicts);
        (self.verdicts)(told, verdicts)
    }
}

/// The first difference on states.
fn on_states(library: &dyn Library) -> Result<(), String> {
    let mut tally = Tally::default();
    (0..STATES)
        .try_for_each(|number| functions::compare(library, &Case::new(1, number), &mut tally))
}

/// The first difference in sessions.
fn in_sessions(library: &dyn Library) -> Result<(), String> {
    let mut tally = Tally::default();
    (0..SESSIONS).try_for_each(|number| session::compare(library, 1, number, ROWS, &mut tally))
}

#[test]
fn no_fault_is_found_where_there_is_none() {
    assert_eq!(on_states(&RIGHT), Ok(()));
    assert_eq!(in_sessions(&RIGHT), Ok(()));
}

#[test]
fn what_is_missing_is_held_to_the_word() {
    let faults: [(&str, Missing); 8] = [
        (
            "nothing is ever missing",
            |told, _| if told == 1 { 0 } else { told },
        ),
        ("a span's last number is overlooked", |told, fetch| {
            fetch[4] -= u32::from(told == 1 && fetch[0] == 1 && fetch[3] < fetch[4]);
            told
        }),
        ("a span of one number is overlooked", |told, fetch| {
            if told == 1 && fetch[0] == 1 && fetch[3] == fetch[4] {
                return 0;
            }
            told
        }),
        ("an issue is forgotten", |told, fetch| {
            fetch[4] *= u32::from(told != 1 || fetch[0] == 1);
            told
        }),
        ("another column of the table is named", |told, fetch| {
            fetch[2] ^= u32::from(told == 1);
            told
        }),
        ("words out of order are taken", |told, _| {
            if told == 5 {
                0
            } else {
                told
            }
        }),
        (
            "too few words are taken",
            |told, _| if told == 7 { 0 } else { told },
        ),
        ("an unlawful state is taken", |told, _| {
            if told == 12 {
                0
            } else {
                told
            }
        }),
    ];
    for (what, missing) in faults {
        let plain = Wrong { missing, ..RIGHT };
        assert!(on_states(&plain).is_err(), "{what}");
        let trusted = Wrong {
            trusted: missing,
            ..RIGHT
        };
        let found = on_states(&trusted).is_err();
        // A trusted call is made on sound states alone.
        let of_state = what.contains("unlawful");
        assert_eq!(found, !of_state, "{what}, trusted");
    }
}

#[test]
fn a_refusal_leaves_the_fetch_and_the_verdicts() {
    let missing: Missing = |told, fetch| {
        fetch[0] ^= u32::from(told > 1);
        told
    };
    assert!(on_states(&Wrong { missing, ..RIGHT }).is_err());
    let verdicts: Verdicts = |told, verdicts| {
        verdicts[63] ^= u32::from(told > 1);
        told
    };
    assert!(on_states(&Wrong { verdicts, ..RIGHT }).is_err());
}

#[test]
fn each_part_of_a_verdict_is_held_to_the_word() {
    let faults: [Verdicts; 7] = [
        |told, verdicts| without(told, verdicts, 1),
        |told, verdicts| without(told, verdicts, 2),
        |told, verdicts| without(told, verdicts, 4),
        |told, verdicts| without(told, verdicts, 8),
        |told, verdicts| without(told, verdicts, 16),
        |told, verdicts| without(told, verdicts, 256),
        |told, _| if told == 12 { 0 } else { told },
    ];
    for (number, verdicts) in faults.into_iter().enumerate() {
        assert!(
            on_states(&Wrong { verdicts, ..RIGHT }).is_err(),
            "fault {number}"
        );
    }
}

fn without(told: u8, verdicts: &mut VerdictWords, part: u32) -> u8 {
    if told == 0 {
        for word in verdicts {
            *word &= !part;
        }
    }
    told
}

/// Passes over what is missing where a test says so of the state and the fetch.
struct PassesOver(fn(&Lent, &FetchWords) -> bool);

impl Library for PassesOver {
    fn name(&self) -> &str {
        "a library that passes over something"
    }

    fn step(&self, command: &[u8], lent: &mut Lent, words: &mut [u32]) -> Told {
        SecondImplementation.step(command, lent, words)
    }

    fn missing(&self, lent: &Lent, fetches: &[u32], count: usize, fetch: &mut FetchWords) -> u8 {
        self.missing_trusted(lent, fetches, count, fetch)
    }

    fn missing_trusted(
        &self,
        lent: &Lent,
        fetches: &[u32],
        count: usize,
        fetch: &mut FetchWords,
    ) -> u8 {
        let mut named = *fetch;
        let told = SecondImplementation.missing(lent, fetches, count, &mut named);
        if told == 1 && (self.0)(lent, &named) {
            return 0;
        }
        *fetch = named;
        told
    }

    fn verdicts(&self, design: &[u32], verdicts: &mut VerdictWords) -> u8 {
        SecondImplementation.verdicts(design, verdicts)
    }
}

/// Whether some row has the fetch's number in its column, of whatever table.
fn seen_anywhere(lent: &Lent, fetch: &FetchWords) -> bool {
    let mut cells = lent.cells.iter().skip(fetch[2] as usize).step_by(8);
    cells.any(|&cell| cell == fetch[3])
}

fn is_unique(lent: &Lent, fetch: &FetchWords) -> bool {
    lent.design[4 + 2 * fetch[1] as usize] >> fetch[2] & 1 == 1
}

#[test]
fn what_is_passed_over_is_found_on_states_and_in_sessions() {
    type Test = fn(&Lent, &FetchWords) -> bool;
    let tests: [(&str, Test); 3] = [
        (
            "a value of a unique column is known without a row",
            is_unique,
        ),
        ("a value that was seen is known", seen_anywhere),
        ("a held value is known", |lent, fetch| {
            let fillings = lent.design[83..].chunks_exact(4);
            fillings
                .take(lent.design[2] as usize)
                .any(|filling| filling[..2] == fetch[1..3])
        }),
    ];
    for (what, test) in tests {
        let library = PassesOver(test);
        assert!(on_states(&library).is_err(), "{what}, on states");
        assert!(in_sessions(&library).is_err(), "{what}, in sessions");
    }
}

/// What a fed desk answers then isn't what the database answers.
#[test]
fn a_fetch_or_a_row_that_is_forgotten_is_found_in_a_session() {
    let forgets: [(&str, Missing); 3] = [
        ("every fetch", |told, _| if told == 1 { 0 } else { told }),
        ("some fetches of values", |told, fetch| {
            match told == 1 && fetch[0] == 0 && fetch[3].is_multiple_of(5) {
                true => 0,
                false => told,
            }
        }),
        ("fetches of spans", |told, fetch| {
            match told == 1 && fetch[0] == 1 {
                true => 0,
                false => told,
            }
        }),
    ];
    for (what, trusted) in forgets {
        assert!(in_sessions(&Wrong { trusted, ..RIGHT }).is_err(), "{what}");
    }
    // A row is put in: 0x1D, its number, its table, its cells. One of seven gets lost.
    let loses = |command: &[u8]| command[0] == 0x1d && command[4].is_multiple_of(7);
    assert!(
        in_sessions(&Wrong { loses, ..RIGHT }).is_err(),
        "rows that came"
    );
    let loses = |command: &[u8]| command[0] == 0x1e;
    assert!(
        in_sessions(&Wrong { loses, ..RIGHT }).is_err(),
        "rows that went"
    );
}
