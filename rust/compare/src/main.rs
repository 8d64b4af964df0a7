//! `compare [--seed N] [--seeds N] [--scripts N] [--examples DIRECTORY]
//! [--before REQUEST] [--against OTHER] [DESK]`: compares the desk program with
//! the second implementation on generated scripts, or with the desk program
//! OTHER.
//!
//! Without the argument DESK, the environment variable DESK names the program.
//! It fails if the two differ in a byte of standard output on a script, or if
//! one of them ends with a status other than 0, by a signal or with anything on
//! standard error; then it prints the first such script and both replies in
//! full, and after them a small one. It prints how many scripts there were, how
//! many commands of each kind and how many answers of each kind, and fails if
//! some answer, cause or extreme was never reached. With `--seeds`, the seeds
//! after the first are taken from the clock; they are printed, so that a failure
//! can be repeated. `--scripts` is for each seed. With `--examples`, both have to
//! give the reports of the examples there too. With `--before`, what a request of
//! document 02 and those after it have changed is taken out of the scripts and of
//! the replies, so that OTHER may be a desk from before that request.

use std::env;
use std::ffi::OsString;
use std::io;
use std::path::{Path, PathBuf};
use std::process::ExitCode;
use std::str::FromStr;
use std::time::{Duration, Instant};

use compare::desk::{Program, Reply};
use compare::examples::examples;
use compare::level::Level;
use compare::random::seeds;
use compare::run::{compare, Scripts, Side, Sides, SECOND_IMPLEMENTATION};
use compare::tally::Tally;

const USAGE: &str = "usage: compare [--seed N] [--seeds N] [--scripts N] \
    [--examples DIRECTORY] [--before REQUEST] [--against OTHER] [DESK]";
const TIME_LIMIT: Duration = Duration::from_secs(10);

struct Options {
    seed: u64,
    seeds: u64,
    scripts: u64,
    level: Level,
    examples: Option<PathBuf>,
    against: Option<PathBuf>,
    desk: PathBuf,
}

fn main() -> ExitCode {
    let success = options(env::args_os().skip(1), env::var_os("DESK")).and_then(|o| run(&o));
    match success {
        Ok(true) => ExitCode::SUCCESS,
        Ok(false) => ExitCode::FAILURE,
        Err(message) => {
            eprintln!("compare: {message}");
            ExitCode::from(2)
        }
    }
}

fn options(
    arguments: impl Iterator<Item = OsString>,
    desk: Option<OsString>,
) -> Result<Options, String> {
    let mut arguments = arguments;
    let mut desk = desk.map(PathBuf::from);
    let (mut seed, mut seeds, mut scripts) = (1, 1, 20_000);
    let (mut level, mut examples, mut against) = (Level::NOW, None, None);
    while let Some(argument) = arguments.next() {
        match argument.to_str() {
            Some("--seed") => seed = number(arguments.next())?,
            Some("--seeds") => seeds = number(arguments.next())?,
            Some("--scripts") => scripts = number(arguments.next())?,
            Some("--before") => level = Level::before(number(arguments.next())?),
            Some("--examples") => examples = Some(arguments.next().ok_or(USAGE)?.into()),
            Some("--against") => against = Some(arguments.next().ok_or(USAGE)?.into()),
            Some(other) if other.starts_with("--") => return Err(USAGE.into()),
            _ => desk = Some(argument.into()),
        }
    }
    let desk = desk.ok_or(USAGE)?;
    Ok(Options {
        seed,
        seeds,
        scripts,
        level,
        examples,
        against,
        desk,
    })
}

fn number<N: FromStr>(argument: Option<OsString>) -> Result<N, String> {
    let number = argument.and_then(|argument| argument.to_str()?.parse().ok());
    number.ok_or(USAGE.into())
}

/// Compares, prints what came of it, and tells whether all was well.
fn run(options: &Options) -> Result<bool, String> {
    let level = options.level;
    let name = options.desk.display().to_string();
    let desk = Side {
        name: &name,
        desk: &program(&options.desk, level),
    };
    let Some(path) = &options.against else {
        let second = |script: &[u8]| Ok(level.reply(SECOND_IMPLEMENTATION.reply(script)?));
        let second = Side {
            desk: &second,
            ..SECOND_IMPLEMENTATION
        };
        return run_both(options, &[desk, second]);
    };
    let name = path.display().to_string();
    let other = Side {
        name: &name,
        desk: &program(path, level),
    };
    run_both(options, &[desk, other])
}

/// A desk program, with its replies as they are at a level.
fn program(path: &Path, level: Level) -> impl Fn(&[u8]) -> io::Result<Reply> + Sync {
    let program = Program {
        path: path.into(),
        time_limit: TIME_LIMIT,
    };
    move |script| Ok(level.reply(program.reply(script)?))
}

fn run_both(options: &Options, sides: &Sides) -> Result<bool, String> {
    let mut tally = Tally::default();
    println!("{}, held to {}", sides[0].name, sides[1].name);
    if let Some(directory) = &options.examples {
        if !examples_are_right(sides, directory, &mut tally)? {
            return Ok(false);
        }
    }
    for seed in seeds(options.seed, options.seeds) {
        let scripts = Scripts {
            seed,
            count: options.scripts,
            level: options.level,
        };
        if !scripts_are_right(sides, scripts, &mut tally)? {
            return Ok(false);
        }
    }
    println!("{tally}");
    let missing = tally.missing(options.level);
    for name in &missing {
        println!("never reached: {name}");
    }
    Ok(missing.is_empty())
}

fn examples_are_right(sides: &Sides, directory: &Path, tally: &mut Tally) -> Result<bool, String> {
    let examples = examples(directory).map_err(|error| error.to_string())?;
    let mut right = true;
    for example in &examples {
        for side in sides {
            let reply = side
                .reply(&example.script)
                .map_err(|error| error.to_string())?;
            if reply != Reply::Report(example.report.clone()) {
                println!(
                    "{} differs, {}:\n{reply}",
                    example.path.display(),
                    side.name
                );
                right = false;
            }
        }
        tally.add(&example.script, &String::from_utf8_lossy(&example.report));
    }
    if right {
        println!("{} examples, no difference", examples.len());
    }
    Ok(right)
}

fn scripts_are_right(sides: &Sides, scripts: Scripts, tally: &mut Tally) -> Result<bool, String> {
    let Scripts { seed, count, .. } = scripts;
    println!("{count} scripts of seed {seed}");
    let start = Instant::now();
    let outcome = compare(sides, scripts).map_err(|error| error.to_string())?;
    if let Some(difference) = outcome.difference {
        println!("script {} of seed {seed} differs", difference.number);
        print!("{}", difference.comparison);
        let reduced = difference.comparison.reduced(sides);
        println!("made small");
        print!("{}", reduced.map_err(|error| error.to_string())?);
        return Ok(false);
    }
    println!(
        "no difference, {:.1} seconds",
        start.elapsed().as_secs_f64()
    );
    tally.merge(outcome.tally);
    Ok(true)
}
