//! The proved desk, if the environment variable DESK names it: examples and
//! failing reads and writes.

use std::env;
use std::path::{Path, PathBuf};
use std::time::Duration;

use compare::desk::{Program, Reply};
use compare::examples::examples;
use compare::faults;

fn desk() -> Option<PathBuf> {
    env::var_os("DESK").map(PathBuf::from)
}

#[test]
fn examples_give_their_reports() {
    let Some(path) = desk() else {
        return;
    };
    let program = Program {
        path,
        time_limit: Duration::from_secs(10),
    };
    let directory = Path::new(env!("CARGO_MANIFEST_DIR")).join("../../examples");
    for example in examples(&directory).expect("examples") {
        let reply = program.reply(&example.script).expect("the desk runs");
        let expected = Reply::Report(example.report);
        assert_eq!(reply, expected, "{}", example.path.display());
    }
}

#[test]
fn failing_reads_and_writes_are_told() {
    let Some(path) = desk() else {
        return;
    };
    let program = faults::Program {
        path,
        scratch: env!("CARGO_TARGET_TMPDIR").into(),
    };
    for fault in faults::faults() {
        assert_eq!(fault.test(&program), Ok(()), "{}", fault.name);
    }
}
