//! The search for the slowest scripts.

use std::path::{Path, PathBuf};
use std::time::Duration;

use bench::slowest::candidate::{Candidate, Kind};
use bench::slowest::{aim, mutate, search};
use compare::desk::Program;
use compare::random::Random;
use notation::{encode, split, Piece};

/// The longest command: a row that is put in.
const LONGEST_COMMAND: usize = 44;

fn is_accepted(candidate: &Candidate) -> bool {
    let length = candidate.script().len();
    assert!((65_537 - LONGEST_COMMAND..=65_536).contains(&length));
    let design = encode(&candidate.design.commands());
    limit::report(&design).starts_with(b"design ")
}

/// Whether the operations after those before them are of the kind.
fn keeps_to(kind: Kind, candidate: &Candidate) -> bool {
    let pieces = split(&candidate.script());
    let first = candidate.design.commands().len() + candidate.before.len();
    pieces[first..].iter().all(|piece| match piece {
        Piece::Command(command) => kind.allows(command),
        Piece::Rest(_) => false,
    })
}

#[test]
fn candidates_have_accepted_designs_and_keep_to_their_kind() {
    for kind in Kind::ALL {
        for candidate in aim::works(kind) {
            assert!(is_accepted(&candidate) && keeps_to(kind, &candidate));
        }
        for number in 0..30 {
            let mut random = Random::new(1, number);
            let mut candidate = aim::random(&mut random, kind);
            for _ in 0..5 {
                assert!(is_accepted(&candidate) && keeps_to(kind, &candidate));
                candidate = mutate::mutate(&mut random, kind, &candidate);
            }
        }
    }
}

#[test]
fn the_seed_decides_the_candidate() {
    let script = |seed| aim::random(&mut Random::new(seed, 7), Kind::Mixed).script();
    assert_eq!(script(1), script(1));
    assert_ne!(script(1), script(2));
}

/// A program of this workspace. It belongs to another package, so only testing
/// the whole workspace is sure to build it.
fn program(name: &str) -> Program {
    let path = Path::new(env!("CARGO_BIN_EXE_bench")).with_file_name(name);
    assert!(path.exists(), "test the whole workspace to build {path:?}");
    Program {
        path,
        time_limit: Duration::from_secs(5),
    }
}

#[test]
fn a_search_finds_something_slower_than_nothing() {
    let desk = program("limit-desk");
    let found = search(&desk, Kind::Drop, 1, Duration::from_secs(2)).expect("right reports");
    assert!(found.tried > 1 && !found.slowest.stopped);
    assert!(found.slowest.time > Duration::from_micros(500));
}

#[test]
fn a_search_finds_a_wrong_report() {
    let wrong = Program {
        path: PathBuf::from("/bin/true"),
        time_limit: Duration::from_secs(5),
    };
    assert!(search(&wrong, Kind::Probe, 1, Duration::from_secs(1)).is_err());
}
