//! The second implementation as a program: it stands in for `desk`.

use std::io::{self, Read, Write};

fn main() -> io::Result<()> {
    let mut script = Vec::new();
    io::stdin().read_to_end(&mut script)?;
    io::stdout().write_all(reference::report(&script).as_bytes())
}
