//! The programs `assemble` and `disassemble`: their options, their streams and what they say of a file.

use std::io::Write;
use std::process::{Command, Stdio};

const ASSEMBLE: &str = env!("CARGO_BIN_EXE_assemble");
const DISASSEMBLE: &str = env!("CARGO_BIN_EXE_disassemble");

/// Standard output, standard error and whether it went well.
fn run(program: &str, arguments: &[&str], input: &[u8]) -> (Vec<u8>, String, bool) {
    let mut command = Command::new(program);
    command.args(arguments);
    command
        .stdin(Stdio::piped())
        .stdout(Stdio::piped())
        .stderr(Stdio::piped());
    let mut child = command.spawn().expect("the program");
    // a program that doesn't read its input may have ended before
    let _ = child.stdin.take().expect("its input").write_all(input);
    let ended = child.wait_with_output().expect("its output");
    let errors = String::from_utf8_lossy(&ended.stderr).into_owned();
    (ended.stdout, errors, ended.status.success())
}

#[test]
fn help_and_version() {
    for (program, name) in [(ASSEMBLE, "assemble"), (DISASSEMBLE, "disassemble")] {
        let (help, errors, well) = run(program, &["--help"], b"");
        let help = String::from_utf8_lossy(&help).into_owned();
        assert!(
            help.contains(&format!("usage: {name} ")) && errors.is_empty() && well,
            "{help}"
        );
        let version = format!("{name} {}\n", env!("CARGO_PKG_VERSION"));
        assert_eq!(
            run(program, &["--version"], b""),
            (version.into(), String::new(), true)
        );
    }
}

#[test]
fn what_is_no_option_or_one_file_too_many_is_told() {
    let (output, errors, well) = run(ASSEMBLE, &["--offsets"], b"end\n");
    let told = "assemble: there is no option --offsets; `assemble --help` shows what there is\n";
    assert_eq!((output, errors.as_str(), well), (vec![], told, false));
    let (output, errors, well) = run(DISASSEMBLE, &["a", "b"], b"");
    let told = "disassemble: one file at a time; `disassemble --help` shows more\n";
    assert_eq!((output, errors.as_str(), well), (vec![], told, false));
}

#[test]
fn errors_name_the_file_and_show_the_line() {
    let (output, errors, well) = run(ASSEMBLE, &[], b"table 1\nrow 0 x\n");
    let told = "assemble: standard input: line 2, column 7: expected a cell, found `x`\n  row 0 x\n        ^\n";
    assert_eq!((output, errors.as_str(), well), (vec![], told, false));
    let (output, errors, well) = run(ASSEMBLE, &[], b"table 2\nrow 0 x\nrow 0 7\nende\nrow 0 7\n");
    let places: Vec<&str> = errors.lines().step_by(3).collect();
    let told = [
        "assemble: standard input: line 2, column 7: expected a cell, found `x`",
        "assemble: standard input: line 3, column 8: table 0 has 2 columns, and the row 1 cell; a blank cell is written `-`",
        "assemble: standard input: line 4, column 1: `ende` is no command",
    ];
    assert_eq!((output, places, well), (vec![], told.to_vec(), false));
    let path = concat!(env!("CARGO_TARGET_TMPDIR"), "/wrong.desk");
    std::fs::write(path, "ende\n").expect("a file");
    let (_, errors, well) = run(ASSEMBLE, &[path], b"");
    let told = format!("assemble: {path}: line 1, column 1: `ende` is no command\n  ende\n  ^\n");
    assert_eq!((errors, well), (told, false));
    let (_, errors, well) = run(DISASSEMBLE, &["nowhere"], b"");
    assert!(
        errors.starts_with("disassemble: nowhere: ") && !well,
        "{errors}"
    );
}

#[test]
fn offsets() {
    let (text, errors, well) = run(DISASSEMBLE, &["--offsets"], &[1, 1, 0, 5]);
    let expected = b"table 1  # byte 0\nend  # byte 3\n".to_vec();
    assert_eq!((text, errors.as_str(), well), (expected, "", true));
    let (text, ..) = run(DISASSEMBLE, &[], &[1, 1, 0, 5]);
    assert_eq!(text, b"table 1\nend\n");
}
