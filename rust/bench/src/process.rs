//! Whole scripts, each program as a child process. Starting a process and reading
//! the design are on the clock.

use std::env;
use std::io;
use std::path::PathBuf;
use std::time::Duration;

use compare::desk::{Program, Reply};

use crate::clock::children_time;
use crate::measure::{measure_runs, Run, Timing, TIME_LIMIT};

/// How long a program may take by the wall clock: long enough to use up its
/// processor time on a busy machine.
const WALL_LIMIT: Duration = Duration::from_secs(20);

/// A desk program with its name in the tables.
pub struct Contender {
    /// The name.
    pub name: &'static str,
    /// The program.
    pub program: Program,
}

/// The desk program at a path, and those of this workspace, which are beside
/// the program that is running.
pub fn contenders(desk: Option<PathBuf>) -> io::Result<Vec<Contender>> {
    let here = env::current_exe()?;
    let limit = here.with_file_name("limit-desk");
    let second = here.with_file_name("reference-desk");
    let paths = [
        ("proved desk", desk),
        ("limit", Some(limit)),
        ("second implementation", Some(second)),
    ];
    let contender = |(name, path): (_, Option<PathBuf>)| {
        Some(Contender {
            name,
            program: Program {
                path: path?,
                time_limit: WALL_LIMIT,
            },
        })
    };
    Ok(paths.into_iter().filter_map(contender).collect())
}

/// Times the programs on a script, or says what is wrong with a report.
pub fn measure_processes(contenders: &[Contender], script: &[u8]) -> Result<Vec<Timing>, String> {
    let expected = &Reply::Report(limit::report(script));
    for Contender { name, program } in contenders {
        run_process(program, script, expected).map_err(|error| format!("{name}: {error}"))?;
    }
    let runs = contenders.iter().map(|contender| -> Run<'_> {
        Box::new(|| {
            let time = run_process(&contender.program, script, expected);
            Some(time.ok()??.as_secs_f64())
        })
    });
    Ok(measure_runs(runs.collect()))
}

/// A program's processor time, unless it passed the limit.
fn run_process(
    program: &Program,
    script: &[u8],
    expected: &Reply,
) -> Result<Option<Duration>, String> {
    let start = children_time();
    let reply = program.reply(script);
    let time = children_time() - start;
    match reply {
        Err(error) => Err(format!("{}: {error}", program.path.display())),
        Ok(_) if time > TIME_LIMIT => Ok(None),
        Ok(reply) if reply == *expected => Ok(Some(time)),
        Ok(reply) => Err(format!("a wrong report:\n{reply}")),
    }
}
