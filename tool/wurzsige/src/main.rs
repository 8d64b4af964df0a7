//! The program `wurzsige`.

use std::process::ExitCode;

use clap::Parser;

fn main() -> ExitCode {
    tool::run::run(&tool::cli::Arguments::parse()).into()
}
