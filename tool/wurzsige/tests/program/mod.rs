//! Runs the program.
#![allow(dead_code)] // each test file uses some of it

pub mod terminal;

use std::io::Write;
use std::path::PathBuf;
use std::process::{Command, Stdio};

use clap::CommandFactory;

/// The example, from the folder that the program is run in.
pub const SLEEP: &str = "examples/sleep.design";

/// How a run ended.
pub struct Ran {
    pub output: String,
    pub bytes: Vec<u8>,
    pub errors: String,
    pub status: i32,
}

/// The project's folder.
pub fn top() -> PathBuf {
    PathBuf::from(env!("CARGO_MANIFEST_DIR")).join("../..")
}

/// A folder for what tests write.
pub fn scratch(name: &str) -> PathBuf {
    PathBuf::from(env!("CARGO_TARGET_TMPDIR")).join(name)
}

/// A design of `tests/designs`, as the program is given it.
pub fn design(name: &str) -> String {
    format!("tool/wurzsige/tests/designs/{name}.design")
}

pub fn text(path: &str) -> String {
    std::fs::read_to_string(top().join(path)).expect(path)
}

/// A text of `tests/expected`.
pub fn expected(name: &str) -> String {
    text(&format!("tool/wurzsige/tests/expected/{name}"))
}

/// Runs the program in the project's folder.
pub fn wurzsige(arguments: &[&str]) -> Ran {
    wurzsige_reading(arguments, b"")
}

/// Runs it with something on standard input.
pub fn wurzsige_reading(arguments: &[&str], input: &[u8]) -> Ran {
    run(command(arguments), input)
}

/// Runs it where no other program can be found.
pub fn wurzsige_alone(arguments: &[&str]) -> Ran {
    let mut command = command(arguments);
    command.env("PATH", "");
    run(command, b"")
}

/// Runs a command of a shell that finds the program by its name.
pub fn shell(line: &str) -> Ran {
    let program = PathBuf::from(env!("CARGO_BIN_EXE_wurzsige"));
    let mut folders = vec![program.parent().expect("its folder").to_path_buf()];
    folders.extend(std::env::split_paths(
        &std::env::var_os("PATH").unwrap_or_default(),
    ));
    let mut command = Command::new("sh");
    command.args(["-c", line]).current_dir(top());
    command.env("PATH", std::env::join_paths(folders).expect("folders"));
    run(command, b"")
}

fn command(arguments: &[&str]) -> Command {
    let mut command = Command::new(env!("CARGO_BIN_EXE_wurzsige"));
    command
        .args(arguments)
        .current_dir(top())
        .env_remove("NO_COLOR");
    command
}

fn run(mut command: Command, input: &[u8]) -> Ran {
    command
        .stdin(Stdio::piped())
        .stdout(Stdio::piped())
        .stderr(Stdio::piped());
    let mut child = command.spawn().expect("the program");
    // a program that doesn't read its input may have ended before
    let _ = child.stdin.take().expect("its input").write_all(input);
    let ended = child.wait_with_output().expect("its output");
    Ran {
        output: String::from_utf8_lossy(&ended.stdout).into_owned(),
        bytes: ended.stdout,
        errors: String::from_utf8_lossy(&ended.stderr).into_owned(),
        status: ended.status.code().expect("a status"),
    }
}

/// A text without the signs that colour it.
pub fn without_colour(text: &str) -> String {
    let mut pieces = text.split('\u{1b}');
    let first = pieces.next().unwrap_or_default().to_string();
    let behind = |piece: &str| piece.split_once('m').map(|(_, text)| text.to_string());
    first + &pieces.filter_map(behind).collect::<String>()
}

/// The names of all commands.
pub fn commands() -> Vec<String> {
    let command = tool::cli::Arguments::command();
    command
        .get_subcommands()
        .map(|command| command.get_name().to_string())
        .collect()
}

/// All long options, of the program and of its commands.
pub fn options() -> Vec<String> {
    let command = tool::cli::Arguments::command();
    let all = command.get_subcommands().chain([&command]);
    let options = all.flat_map(|command| {
        command
            .get_arguments()
            .filter_map(|argument| argument.get_long())
    });
    options.map(|option| format!("--{option}")).collect()
}
