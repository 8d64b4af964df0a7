//! `disassemble [--offsets] [FILE]`: a script's bytes in, its text out.

use std::process::ExitCode;

use notation::filter::{run, Program};

const OFFSETS: &str = "--offsets";

const HELP: &str = "\
disassemble: the text of a script's bytes

usage: disassemble [--offsets] [FILE]

FILE, or standard input, has the bytes; the text goes to standard output.

  --offsets  behind each command the byte at which it begins, as refusals name it
  --help     show this
  --version  show the version
";

fn main() -> ExitCode {
    let program = Program {
        name: "disassemble",
        help: HELP,
        options: &[OFFSETS],
    };
    run(&program, |script, given| {
        let text = match given(OFFSETS) {
            true => notation::disassemble_with_offsets(&script),
            false => notation::disassemble(&script),
        };
        Ok(text.into_bytes())
    })
}
