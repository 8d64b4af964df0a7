//! `lent [--seed N] [--seeds N] [--states N]`: compares the proved library with the second
//! implementation on lent states, of which most are changed into unlawful ones.
//!
//! It needs the feature `proved`; without it the second implementation stands in for the
//! library, which shows what the states reach. It fails at the first difference in what a
//! call tells or in any byte of memory afterwards, which it prints with the state, or if
//! some flaw or outcome was never reached. With `--seeds`, the seeds after the first are
//! taken from the clock; they are printed, so that a failure can be repeated. `--states`
//! is for each seed.

use std::env;
use std::process::ExitCode;
use std::time::Instant;

use compare::random::seeds;
use lent::case::Case;
use lent::library::UNDER_COMPARISON;
use lent::run::compare;
use lent::tally::Tally;

const USAGE: &str = "usage: lent [--seed N] [--seeds N] [--states N]";

struct Options {
    seed: u64,
    seeds: u64,
    states: u64,
}

fn main() -> ExitCode {
    match options(env::args().skip(1)) {
        Ok(options) if run(&options) => ExitCode::SUCCESS,
        Ok(_) => ExitCode::FAILURE,
        Err(message) => {
            eprintln!("lent: {message}");
            ExitCode::from(2)
        }
    }
}

fn options(mut arguments: impl Iterator<Item = String>) -> Result<Options, &'static str> {
    let mut options = Options {
        seed: 1,
        seeds: 1,
        states: 20_000,
    };
    while let Some(argument) = arguments.next() {
        let option = match argument.as_str() {
            "--seed" => &mut options.seed,
            "--seeds" => &mut options.seeds,
            "--states" => &mut options.states,
            _ => return Err(USAGE),
        };
        let number = arguments.next().and_then(|number| number.parse().ok());
        *option = number.ok_or(USAGE)?;
    }
    Ok(options)
}

/// Compares, prints what came of it, and tells whether all was well.
fn run(options: &Options) -> bool {
    let mut tally = Tally::default();
    println!(
        "{}, held to the second implementation",
        UNDER_COMPARISON.name()
    );
    for seed in seeds(options.seed, options.seeds) {
        if !states_are_right(seed, options.states, &mut tally) {
            return false;
        }
    }
    print!("{tally}");
    let missing = tally.missing();
    for name in &missing {
        println!("never reached: {name}");
    }
    missing.is_empty()
}

fn states_are_right(seed: u64, states: u64, tally: &mut Tally) -> bool {
    println!("{states} states of seed {seed}");
    let start = Instant::now();
    for number in 0..states {
        if let Err(difference) = compare(UNDER_COMPARISON, &Case::new(seed, number), tally) {
            println!("state {number} of seed {seed} differs");
            print!("{difference}");
            return false;
        }
    }
    println!(
        "no difference, {:.1} seconds",
        start.elapsed().as_secs_f64()
    );
    true
}
