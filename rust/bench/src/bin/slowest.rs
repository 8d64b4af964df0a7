//! `slowest [--seconds N] [--limit N] [--seed N] [--folder FOLDER] [DESK]`: looks
//! for the scripts on which the desk program takes longest, one for each kind of
//! operation, and writes them to the folder, `target/slowest` unless given, as
//! bytes and in the notation.
//!
//! Without the argument DESK, the environment variable DESK names the program.
//! `--seconds` is the time for the whole search, `--limit` the longest time for
//! one script, both by the wall clock; a script that has been begun is ended, so
//! that the search may take so much longer for each kind. It fails if a report is
//! wrong.

use std::env;
use std::ffi::OsString;
use std::fs;
use std::io;
use std::path::{Path, PathBuf};
use std::process::ExitCode;
use std::time::Duration;

use bench::measure::Timing;
use bench::slowest::candidate::Kind;
use bench::slowest::{search, Found};
use bench::table::{time, Table};
use compare::desk::Program;

const USAGE: &str = "usage: slowest [--seconds N] [--limit N] [--seed N] [--folder FOLDER] [DESK]";

struct Options {
    seconds: u64,
    limit: u64,
    seed: u64,
    folder: PathBuf,
    desk: PathBuf,
}

fn main() -> ExitCode {
    let options = options(env::args_os().skip(1), env::var_os("DESK"));
    match options.and_then(|options| run(&options)) {
        Ok(()) => ExitCode::SUCCESS,
        Err(message) => {
            eprintln!("slowest: {message}");
            ExitCode::FAILURE
        }
    }
}

fn options(
    mut arguments: impl Iterator<Item = OsString>,
    desk: Option<OsString>,
) -> Result<Options, String> {
    let mut desk = desk.map(PathBuf::from);
    let (mut seconds, mut limit, mut seed, mut folder) =
        (60, 10, 1, PathBuf::from("target/slowest"));
    while let Some(argument) = arguments.next() {
        match argument.to_str() {
            Some("--seconds") => seconds = number(arguments.next())?,
            Some("--limit") => limit = number(arguments.next())?,
            Some("--seed") => seed = number(arguments.next())?,
            Some("--folder") => folder = arguments.next().ok_or(USAGE)?.into(),
            Some(other) if other.starts_with("--") => return Err(USAGE.into()),
            _ => desk = Some(argument.into()),
        }
    }
    let desk = desk.ok_or(USAGE)?;
    Ok(Options {
        seconds,
        limit,
        seed,
        folder,
        desk,
    })
}

fn number(argument: Option<OsString>) -> Result<u64, String> {
    let number = argument.and_then(|argument| argument.to_str()?.parse().ok());
    number.ok_or(USAGE.into())
}

fn run(options: &Options) -> Result<(), String> {
    let program = Program {
        path: options.desk.clone(),
        time_limit: Duration::from_secs(options.limit),
    };
    fs::create_dir_all(&options.folder).map_err(|error| error.to_string())?;
    let share = Duration::from_secs(options.seconds) / Kind::ALL.len() as u32;
    let mut table = Table::default();
    let head = [
        "",
        "processor time",
        "report's bytes",
        "beyond 1 ns a byte",
        "operations",
        "each",
        "tried",
    ];
    table.add(head.map(String::from).into());
    for kind in Kind::ALL {
        let found = search(&program, kind, options.seed, share).map_err(|wrong| {
            let kept = write(&options.folder, "wrong", &wrong.script);
            let kept = kept.map_or_else(|error| error.to_string(), |()| "see wrong.desk".into());
            let reply: String = wrong.reply.chars().take(1_000).collect();
            format!("a wrong report, {kept}:\n{reply}")
        })?;
        let script = found.slowest.candidate.script();
        write(&options.folder, kind.name(), &script).map_err(|error| error.to_string())?;
        table.add(line(kind, &found));
    }
    println!("{}", table.text());
    let folder = options.folder.display();
    println!("The scripts are in {folder}, KIND.script, and in the notation KIND.desk.");
    Ok(())
}

fn line(kind: Kind, found: &Found) -> Vec<String> {
    let slowest = &found.slowest;
    let operations = slowest.candidate.operations();
    let stopped = if slowest.stopped { "over " } else { "" };
    let shown = |seconds| stopped.to_string() + &time(Timing::Least(seconds));
    let beyond = slowest.beyond().as_secs_f64();
    vec![
        kind.name().into(),
        shown(slowest.time.as_secs_f64()),
        slowest.report.to_string(),
        shown(beyond),
        operations.to_string(),
        shown(beyond / operations as f64),
        found.tried.to_string(),
    ]
}

fn write(folder: &Path, name: &str, script: &[u8]) -> io::Result<()> {
    let path = folder.join(name);
    fs::write(path.with_extension("script"), script)?;
    fs::write(path.with_extension("desk"), notation::disassemble(script))
}
