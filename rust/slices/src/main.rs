//! `slices [--seed N] [--seeds N] [--states N] [--sessions N] [--rows N]`: compares what the
//! proved library says of slices with the second implementation on lent states; and in
//! sessions of 100 operations, desks that are fed from databases of so many rows with a desk
//! that has all of them.
//!
//! It needs the feature `proved`; without it the second implementation stands in for the
//! library. It fails at the first difference, or if some outcome was never reached. With
//! `--seeds`, the seeds after the first are taken from the clock; they are printed, so that
//! a failure can be repeated. The other numbers are for each seed.

use std::env;
use std::process::ExitCode;

use compare::random::seeds;
use slices::functions::{self, Case};
use slices::library::UNDER_COMPARISON;
use slices::session;
use slices::tally::Tally;

const USAGE: &str = "usage: slices [--seed N] [--seeds N] [--states N] [--sessions N] [--rows N]";

struct Options {
    seed: u64,
    seeds: u64,
    states: u64,
    sessions: u64,
    rows: u64,
}

fn main() -> ExitCode {
    match options(env::args().skip(1)) {
        Ok(options) if run(&options) => ExitCode::SUCCESS,
        Ok(_) => ExitCode::FAILURE,
        Err(message) => {
            eprintln!("slices: {message}");
            ExitCode::from(2)
        }
    }
}

fn options(mut arguments: impl Iterator<Item = String>) -> Result<Options, &'static str> {
    let mut options = Options {
        seed: 1,
        seeds: 1,
        states: 20_000,
        sessions: 60,
        rows: 3_000,
    };
    while let Some(argument) = arguments.next() {
        let option = match argument.as_str() {
            "--seed" => &mut options.seed,
            "--seeds" => &mut options.seeds,
            "--states" => &mut options.states,
            "--sessions" => &mut options.sessions,
            "--rows" => &mut options.rows,
            _ => return Err(USAGE),
        };
        let number = arguments.next().and_then(|number| number.parse().ok());
        *option = number.ok_or(USAGE)?;
    }
    Ok(options)
}

/// Compares, prints what came of it, and tells whether all was well.
fn run(options: &Options) -> bool {
    let mut tally = Tally::default();
    let name = UNDER_COMPARISON.name();
    println!("{name}, held to the second implementation");
    for seed in seeds(options.seed, options.seeds) {
        let Options {
            states, sessions, ..
        } = options;
        println!("{states} states and {sessions} sessions of seed {seed}");
        if let Err(difference) = compared(options, seed, &mut tally) {
            println!("{difference}");
            return false;
        }
    }
    print!("{tally}");
    let never = tally.never_reached();
    for name in &never {
        println!("never reached: {name}");
    }
    never.is_empty()
}

fn compared(options: &Options, seed: u64, tally: &mut Tally) -> Result<(), String> {
    for number in 0..options.states {
        let compared = functions::compare(UNDER_COMPARISON, &Case::new(seed, number), tally);
        compared.map_err(|difference| format!("state {number} of seed {seed}: {difference}"))?;
    }
    for number in 0..options.sessions {
        let rows = options.rows as usize;
        let compared = session::compare(UNDER_COMPARISON, seed, number, rows, tally);
        compared.map_err(|difference| format!("seed {seed}: {difference}"))?;
    }
    Ok(())
}
