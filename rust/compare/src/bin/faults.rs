//! `faults [DESK]`: makes reads and writes of the desk program fail, and tells
//! what it does then. Without the argument DESK, the environment variable DESK
//! names the program.

use std::env;
use std::process::ExitCode;

use compare::faults::{faults, Program};

fn main() -> ExitCode {
    let Some(path) = env::args_os().nth(1).or(env::var_os("DESK")) else {
        eprintln!("usage: faults [DESK]");
        return ExitCode::from(2);
    };
    let program = Program {
        path: path.into(),
        scratch: env::temp_dir(),
    };
    let mut right = true;
    for fault in faults() {
        match fault.test(&program) {
            Ok(()) => println!("well   {}", fault.name),
            Err(error) => {
                println!("wrong  {}: {error}", fault.name);
                right = false;
            }
        }
    }
    if right {
        ExitCode::SUCCESS
    } else {
        ExitCode::FAILURE
    }
}
