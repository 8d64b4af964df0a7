//! A search for the scripts on which a desk program takes longest, one for each
//! kind of operation.
//!
//! - [`candidate`] is what is searched through: a design, and operations that
//!   are repeated up to the longest script.
//! - [`aim`] makes candidates that may be slow.
//! - [`mutate`] changes one of them a little.
//!
//! The slowest few of a kind are kept. Now and then a new one is made, but most
//! candidates are changes of one that is kept. Which ones come depends on the
//! seed, and on the times, by which they are kept.

pub mod aim;
pub mod candidate;
pub mod mutate;

use std::cmp::Reverse;
use std::time::{Duration, Instant};

use compare::desk::{Program, Reply};
use compare::random::Random;

use crate::clock::children_time;
use candidate::{Candidate, Kind};

/// How many candidates are kept.
const KEPT: usize = 6;

/// In how many of a hundred cases a candidate is made anew.
const NEW: usize = 30;

/// A candidate with its time.
#[derive(Clone, Debug)]
pub struct Timed {
    /// The candidate.
    pub candidate: Candidate,
    /// The program's processor time on its script, up to its time limit.
    pub time: Duration,
    /// How many bytes its report has; none if the program was stopped.
    pub report: usize,
    /// Whether the program was stopped by the time limit.
    pub stopped: bool,
}

impl Timed {
    /// The processor time beyond a nanosecond for each byte of the report, by which candidates
    /// are told to be slow: a report has to be written.
    pub fn beyond(&self) -> Duration {
        self.time
            .saturating_sub(Duration::from_nanos(self.report as u64))
    }
}

/// What a search has found.
#[derive(Clone, Debug)]
pub struct Found {
    /// The slowest candidate.
    pub slowest: Timed,
    /// How many were tried.
    pub tried: usize,
}

/// A script on which the program is wrong.
#[derive(Clone, Debug)]
pub struct Wrong {
    /// The script.
    pub script: Vec<u8>,
    /// What the program did.
    pub reply: String,
}

/// Looks for the slowest script of a kind until the time is over, or until the
/// program had to be stopped: then nothing slower can be told. The program has
/// to report as `limit` does.
pub fn search(program: &Program, kind: Kind, seed: u64, time: Duration) -> Result<Found, Wrong> {
    let start = Instant::now();
    let mut kept: Vec<Timed> = Vec::new();
    let mut tried = 0;
    let mut aimed = aim::works(kind).into_iter();
    while tried == 0 || start.elapsed() < time && !kept[0].stopped {
        let mut random = Random::new(seed, tried as u64);
        let candidate = match (aimed.next(), random.pick_any(&kept)) {
            (Some(candidate), _) => candidate,
            (None, Some(parent)) if !random.percent(NEW) => {
                mutate::mutate(&mut random, kind, &parent.candidate)
            }
            _ => aim::random(&mut random, kind),
        };
        tried += 1;
        let timed = measure(program, candidate)?;
        let fastest = kept.last().filter(|_| kept.len() == KEPT);
        if timed.stopped || fastest.is_none_or(|fastest| fastest.beyond() < timed.beyond()) {
            let in_time = start.elapsed() < time;
            let timed = if in_time {
                again(program, timed)?
            } else {
                timed
            };
            keep(&mut kept, timed);
        }
    }
    let slowest = kept.swap_remove(0);
    Ok(Found { slowest, tried })
}

fn keep(kept: &mut Vec<Timed>, timed: Timed) {
    kept.push(timed);
    kept.sort_by_key(|timed| Reverse((timed.stopped, timed.beyond())));
    kept.truncate(KEPT);
}

/// A time may be long by accident, so the shorter of two counts.
fn again(program: &Program, timed: Timed) -> Result<Timed, Wrong> {
    if timed.stopped {
        return Ok(timed);
    }
    let second = measure(program, timed.candidate.clone())?;
    Ok(if second.time < timed.time {
        second
    } else {
        timed
    })
}

/// Times the program on a candidate.
pub fn measure(program: &Program, candidate: Candidate) -> Result<Timed, Wrong> {
    let script = candidate.script();
    let start = children_time();
    let reply = program.reply(&script);
    let time = children_time() - start;
    let (report, stopped) = match reply {
        Ok(Reply::OutOfTime) => (0, true),
        Ok(Reply::Report(report)) if report == limit::report(&script) => (report.len(), false),
        Ok(reply) => {
            let reply = reply.to_string();
            return Err(Wrong { script, reply });
        }
        Err(error) => {
            let reply = error.to_string();
            return Err(Wrong { script, reply });
        }
    };
    Ok(Timed {
        candidate,
        time,
        report,
        stopped,
    })
}
