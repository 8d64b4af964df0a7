//! `steps [PAGE]`: prints the library's figures, or puts them on a page between the
//! marks that stand there for them.

use std::env;
use std::fs;
use std::process::ExitCode;

use bench::steps::{figures, page::filled};

fn main() -> ExitCode {
    match run() {
        Ok(()) => ExitCode::SUCCESS,
        Err(message) => {
            eprintln!("steps: {message}");
            ExitCode::FAILURE
        }
    }
}

fn run() -> Result<(), String> {
    let Some(path) = env::args_os().nth(1) else {
        print!("{}", figures());
        return Ok(());
    };
    let page = fs::read_to_string(&path).map_err(|error| error.to_string())?;
    let filled = filled(&page, &figures()).ok_or("the page has no marks for figures")?;
    fs::write(&path, filled).map_err(|error| error.to_string())
}
