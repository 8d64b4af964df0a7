//! `assemble [FILE]`: a script's text in, its bytes out.

use std::process::ExitCode;

use notation::filter::{run, Program};

const HELP: &str = "\
assemble: the bytes of a script that is written in the notation

usage: assemble [FILE]

FILE, or standard input, is the text; the bytes go to standard output. docs/USING.md
has the notation.

  --help     show this
  --version  show the version
";

fn main() -> ExitCode {
    let program = Program {
        name: "assemble",
        help: HELP,
        options: &[],
    };
    run(&program, |bytes, _| {
        let text = String::from_utf8(bytes).map_err(|error| vec![error.to_string()])?;
        let shown = |errors: Vec<notation::Error>| {
            let errors = errors.iter();
            errors.map(|error| error.shown_in(&text)).collect()
        };
        notation::assemble_whole(&text).map_err(shown)
    })
}
