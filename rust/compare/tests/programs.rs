//! The comparison with child processes: the second implementation's own
//! program, wrong variants of it made with a shell, and ill-behaved programs.

use std::fs;
use std::os::unix::fs::PermissionsExt;
use std::path::{Path, PathBuf};
use std::process::{Command, Output};
use std::sync::Once;
use std::time::Duration;

use compare::desk::{Program, Reply};

/// The program that stands in for the desk. It belongs to another package, so
/// only testing the whole workspace is sure to build it.
fn reference_desk() -> PathBuf {
    let path = Path::new(env!("CARGO_BIN_EXE_compare")).with_file_name("reference-desk");
    assert!(path.exists(), "test the whole workspace to build {path:?}");
    path
}

fn shell_program(name: &str) -> PathBuf {
    Path::new(env!("CARGO_TARGET_TMPDIR")).join(name)
}

/// Writes the shell programs, all of them before any process is started: one
/// that another test starts meanwhile could keep a file open for writing, and
/// such a file can't be run.
fn write_shell_programs() {
    static WRITTEN: Once = Once::new();
    WRITTEN.call_once(|| {
        let wrong = format!(
            "'{}' | sed 's/no candidate/held/'",
            reference_desk().display()
        );
        let one_byte = format!(
            "'{}' | sed '0,/ ground 2 /s// ground 3 /'",
            reference_desk().display()
        );
        let without_rows = format!(
            "'{}' | sed 's/\\( ground [1-3]\\) [0-9]*$/\\1/'",
            reference_desk().display()
        );
        let careless = format!("'{}' 2>/dev/null", reference_desk().display());
        for (name, body) in [
            ("wrong", wrong.as_str()),
            ("one-byte", one_byte.as_str()),
            ("without-rows", without_rows.as_str()),
            ("hasty", "echo refused 4 0"),
            ("echoing", "cat"),
            ("dying", "kill -6 $$"),
            ("failing", "cat; exit 3"),
            ("complaining", "cat; echo oh >&2"),
            ("careless", careless.as_str()),
            ("endless", "exec sleep 60"),
        ] {
            let path = shell_program(name);
            fs::write(&path, format!("#!/bin/sh\n{body}\n")).expect("a temporary file");
            fs::set_permissions(&path, fs::Permissions::from_mode(0o755)).expect("permissions");
        }
    });
}

fn run_compare(desk: &Path, scripts: &str) -> (Output, String) {
    write_shell_programs();
    let output = Command::new(env!("CARGO_BIN_EXE_compare"))
        .args(["--seed", "5", "--scripts", scripts])
        .env("DESK", desk)
        .output()
        .expect("compare runs");
    let text = String::from_utf8_lossy(&output.stdout).into_owned();
    (output, text)
}

fn reply(name: &str, script: &[u8], seconds: u64) -> Reply {
    write_shell_programs();
    let program = Program {
        path: shell_program(name),
        time_limit: Duration::from_secs(seconds),
    };
    program.reply(script).expect("the program runs")
}

#[test]
fn the_same_desk_twice() {
    let (output, text) = run_compare(&reference_desk(), "2500");
    assert!(output.status.success(), "{text}");
    assert!(text.contains("2500 scripts of seed 5"), "{text}");
    assert!(text.contains("no difference"), "{text}");
}

#[test]
fn too_few_scripts_to_reach_everything() {
    let (output, text) = run_compare(&reference_desk(), "3");
    assert_eq!(output.status.code(), Some(1), "{text}");
    assert!(text.contains("never reached: refused 11"), "{text}");
}

#[test]
fn a_desk_with_one_wrong_line() {
    let (output, text) = run_compare(&shell_program("wrong"), "2500");
    assert_eq!(output.status.code(), Some(1), "{text}");
    assert!(text.contains("of seed 5 differs"), "{text}");
    let (_, difference) = text.split_once(" bytes:\n").expect("a script");
    let (_, difference) = difference.split_once("made small\n").expect("a small one");
    let (script, reports) = difference.split_once("/wrong:\n").expect("reports");
    assert!(script.contains("\nend\nrefer "), "{text}");
    assert!(script.lines().count() < 15, "{text}");
    let reports = reports.split_once("the second implementation:\n");
    let (wrong, right) = reports.expect("two reports");
    assert!(wrong.ends_with("\n0 held\n"), "{text}");
    assert!(right.ends_with("\n0 no candidate\n"), "{text}");
}

fn run_against(other: &Path, desk: &Path, more: &[&Path]) -> (Output, String) {
    write_shell_programs();
    let output = Command::new(env!("CARGO_BIN_EXE_compare"))
        .args(["--scripts", "2000", "--against"])
        .args([other, desk])
        .args(more)
        .output()
        .expect("compare runs");
    let text = String::from_utf8_lossy(&output.stdout).into_owned();
    (output, text)
}

#[test]
fn a_desk_program_against_another() {
    let examples = Path::new(env!("CARGO_MANIFEST_DIR")).join("../../examples");
    let more = [Path::new("--examples"), &examples];
    let (output, text) = run_against(&reference_desk(), &reference_desk(), &more);
    assert!(output.status.success(), "{text}");
    assert!(text.contains(" examples, no difference"), "{text}");
    let scripts = text.lines().find_map(|line| line.strip_suffix("  scripts"));
    let scripts: usize = scripts
        .and_then(|count| count.trim().parse().ok())
        .expect("a count");
    assert!(scripts > 2_000, "{text}");
    let (_, commands) = text.split_once("  commands\n").expect("commands");
    let (commands, _) = commands.split_once("  outcomes").expect("outcomes");
    assert!(commands.contains("  query\n"), "{text}");
    assert!(!commands.contains(" 0  "), "{text}");
}

#[test]
fn scripts_from_before_a_request() {
    let more = [Path::new("--before"), Path::new("2")];
    let (output, text) = run_against(&reference_desk(), &reference_desk(), &more);
    assert!(output.status.success(), "{text}");
    assert!(text.contains(" 0  query referred with lists\n"), "{text}");
}

/// A desk that prints no rows behind a ground, as one from before request 04.
#[test]
fn a_desk_from_before_a_request() {
    let old = shell_program("without-rows");
    let more = [Path::new("--before"), Path::new("4")];
    let (output, text) = run_against(&old, &reference_desk(), &more);
    assert!(output.status.success(), "{text}");
    let (output, text) = run_against(&old, &reference_desk(), &[]);
    assert_eq!(output.status.code(), Some(1), "{text}");
    assert!(text.contains("probe"), "{text}");
}

#[test]
fn one_other_byte_in_what_a_desk_is_held_to() {
    let (output, text) = run_against(&shell_program("one-byte"), &reference_desk(), &[]);
    assert_eq!(output.status.code(), Some(1), "{text}");
    assert!(text.contains(" of seed 1 differs\nscript, "), "{text}");
    let (_, small) = text.split_once("made small\n").expect("a small one");
    let (_, reports) = small.split_once("/reference-desk:\n").expect("reports");
    let (report, rest) = reports.split_once("ground 2 ").expect("a ground");
    let (_, other) = rest.split_once("/one-byte:\n").expect("two reports");
    assert!(other.starts_with(&format!("{report}ground 3 ")), "{text}");
}

#[test]
fn several_seeds_are_printed_and_the_first_is_the_one_given() {
    let output = Command::new(env!("CARGO_BIN_EXE_compare"))
        .args(["--seed", "5", "--seeds", "2", "--scripts", "1500"])
        .arg(reference_desk())
        .output()
        .expect("compare runs");
    let text = String::from_utf8_lossy(&output.stdout);
    let seeds: Vec<&str> = text
        .lines()
        .filter_map(|line| line.strip_prefix("1500 scripts of seed "))
        .collect();
    assert_eq!((seeds.len(), seeds[0]), (2, "5"), "{text}");
    assert_ne!(seeds[1], "5", "{text}");
    assert!(output.status.success(), "{text}");
}

fn run_examples(desk: &Path) -> (Output, String) {
    write_shell_programs();
    let examples = Path::new(env!("CARGO_MANIFEST_DIR")).join("../../examples");
    let output = Command::new(env!("CARGO_BIN_EXE_compare"))
        .args(["--scripts", "0", "--examples"])
        .args([&examples, desk])
        .output()
        .expect("compare runs");
    let text = String::from_utf8_lossy(&output.stdout).into_owned();
    (output, text)
}

#[test]
fn examples_hold_a_desk_to_their_reports() {
    let (_, right) = run_examples(&reference_desk());
    assert!(right.contains("examples, no difference"), "{right}");
    let (output, wrong) = run_examples(&shell_program("hasty"));
    assert!(wrong.contains("ward.desk differs"), "{wrong}");
    assert_eq!(output.status.code(), Some(1));
}

/// What `faults` finds wrong with a program.
fn faults(program: &Path) -> Vec<String> {
    write_shell_programs();
    let output = Command::new(env!("CARGO_BIN_EXE_faults"))
        .arg(program)
        .output()
        .expect("faults runs");
    let text = String::from_utf8_lossy(&output.stdout).into_owned();
    let wrong = text.lines().filter_map(|line| line.strip_prefix("wrong  "));
    let names = wrong.filter_map(|line| Some(line.split_once(':')?.0.to_string()));
    let names: Vec<String> = names.collect();
    assert_eq!(output.status.success(), names.is_empty(), "{text}");
    names
}

/// Rust opens descriptors that are closed at the start, so that the second
/// implementation doesn't see these two.
#[test]
fn the_second_implementation_has_two_faults() {
    assert_eq!(faults(&reference_desk()), ["output closed", "input closed"]);
}

#[test]
fn a_program_that_does_not_complain_has_more() {
    let found = faults(&shell_program("careless"));
    for name in ["a full device, a short report", "a directory as input"] {
        assert!(found.iter().any(|found| found == name), "{found:?}");
    }
}

#[test]
fn a_desk_that_is_not_there() {
    let (output, _) = run_compare(Path::new("/no/such/desk"), "3");
    assert_eq!(output.status.code(), Some(2));
}

#[test]
fn a_program_that_does_not_read() {
    let expected = Reply::Report(b"refused 4 0\n".to_vec());
    assert_eq!(reply("hasty", &[0; 300_000], 60), expected);
}

#[test]
fn a_program_that_prints_while_it_reads() {
    let script = [b'a'; 300_000];
    assert_eq!(
        reply("echoing", &script, 60),
        Reply::Report(script.to_vec())
    );
}

#[test]
fn a_program_that_fails() {
    assert_eq!(reply("failing", b"a", 60), Reply::Failed(3));
}

#[test]
fn a_program_that_complains() {
    assert_eq!(
        reply("complaining", b"a", 60),
        Reply::Complaint(b"oh\n".to_vec())
    );
}

#[test]
fn a_program_that_dies() {
    assert_eq!(reply("dying", b"", 60), Reply::Killed(6));
}

#[test]
fn a_program_that_never_ends() {
    assert_eq!(reply("endless", b"", 1), Reply::OutOfTime);
}
