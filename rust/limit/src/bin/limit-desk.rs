//! The desk written for speed as a program: it stands in for `desk`.

use std::io::{self, Read};

/// One byte more than the longest script: longer ones needn't be read.
const ENOUGH: u64 = 65_537;

fn main() -> io::Result<()> {
    let mut script = Vec::with_capacity(ENOUGH as usize + 32);
    io::stdin().lock().take(ENOUGH).read_to_end(&mut script)?;
    limit::report::write_report(&script, &mut io::stdout().lock())
}
