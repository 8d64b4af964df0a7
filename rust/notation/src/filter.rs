//! What the programs `assemble` and `disassemble` share: a file or standard
//! input is read, converted and written to standard output.

use std::ffi::OsString;
use std::io::{self, Read, Write};
use std::process::ExitCode;
use std::{env, fs};

/// A program that converts a file.
pub struct Program {
    /// Its name.
    pub name: &'static str,
    /// What `--help` shows.
    pub help: &'static str,
    /// The options that it has beside `--help` and `--version`.
    pub options: &'static [&'static str],
}

/// What the command line asks for.
enum Asked {
    Shown(String),
    Converted {
        options: Vec<OsString>,
        path: Option<OsString>,
    },
}

/// What was converted, or all that is wrong.
type Converted = Result<Vec<u8>, Vec<String>>;

/// Converts the file named by the only argument, or standard input if there is
/// none; the conversion is told whether an option was given. What is wrong is told on
/// standard error, each after the names of the program and the file.
pub fn run(
    program: &Program,
    convert: impl Fn(Vec<u8>, &dyn Fn(&str) -> bool) -> Converted,
) -> ExitCode {
    let written = converted(program, convert).and_then(|bytes| {
        let written = io::stdout().write_all(&bytes);
        written.map_err(|error| vec![error.to_string()])
    });
    let Err(messages) = written else {
        return ExitCode::SUCCESS;
    };
    for message in messages {
        eprintln!("{}: {message}", program.name);
    }
    ExitCode::FAILURE
}

fn converted(
    program: &Program,
    convert: impl Fn(Vec<u8>, &dyn Fn(&str) -> bool) -> Converted,
) -> Converted {
    let asked = asked(program, env::args_os().skip(1).collect());
    match asked.map_err(|message| vec![message])? {
        Asked::Shown(text) => Ok(text.into_bytes()),
        Asked::Converted { options, path } => {
            let (name, bytes) = read(path);
            let given = |option: &str| options.iter().any(|other| other == option);
            let converted = bytes.map_err(|error| vec![error.to_string()]);
            let converted = converted.and_then(|bytes| convert(bytes, &given));
            let of_file = |message: String| format!("{name}: {message}");
            converted.map_err(|messages| messages.into_iter().map(of_file).collect())
        }
    }
}

fn asked(program: &Program, arguments: Vec<OsString>) -> Result<Asked, String> {
    let Program {
        name,
        help,
        options: known,
    } = program;
    if arguments.iter().any(|argument| argument == "--help") {
        return Ok(Asked::Shown(help.to_string()));
    }
    if arguments.iter().any(|argument| argument == "--version") {
        let version = env!("CARGO_PKG_VERSION");
        return Ok(Asked::Shown(format!("{name} {version}\n")));
    }
    let is_option = |argument: &OsString| argument.to_string_lossy().starts_with("--");
    let (options, mut paths): (Vec<_>, Vec<_>) = arguments.into_iter().partition(is_option);
    let is_known = |option: &OsString| known.iter().any(|known| option == known);
    match options.iter().find(|option| !is_known(option)) {
        Some(option) => Err(format!(
            "there is no option {}; `{name} --help` shows what there is",
            option.to_string_lossy()
        )),
        None if paths.len() > 1 => Err(format!("one file at a time; `{name} --help` shows more")),
        None => Ok(Asked::Converted {
            options,
            path: paths.pop(),
        }),
    }
}

/// The name and the bytes of a file, or of standard input.
fn read(path: Option<OsString>) -> (String, io::Result<Vec<u8>>) {
    match path {
        Some(path) => (path.to_string_lossy().into_owned(), fs::read(path)),
        None => {
            let mut bytes = Vec::new();
            let read = io::stdin().read_to_end(&mut bytes);
            ("standard input".into(), read.map(|_| bytes))
        }
    }
}
