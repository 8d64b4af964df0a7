//! What the tests share.

use std::path::Path;

use compare::examples::{Example, examples};
use wurzsige::{Desk, Memory};

/// The example scripts, each with its report.
#[allow(dead_code)]
pub fn all_examples() -> Vec<Example> {
    let directory = Path::new(env!("CARGO_MANIFEST_DIR")).join("../../examples");
    let examples = examples(&directory).expect("the examples");
    assert!(examples.len() > 9, "only {} examples", examples.len());
    examples
}

/// A desk with the design of a text in the notation.
#[allow(dead_code)]
pub fn opened(text: &str) -> Desk {
    let script = notation::assemble(text).expect("a script");
    Desk::open(&script).expect("a design")
}

/// Everything that a desk keeps between two calls: all but its working memory.
#[allow(dead_code)]
pub fn kept(desk: &Desk) -> Box<Memory> {
    let mut kept = desk.to_memory();
    kept.counts_mut().fill(0);
    kept.places_mut().fill(0);
    kept
}

/// The same, with zeros where the directory has places that no value takes: a row that came or
/// went may leave something there, which means nothing.
#[allow(dead_code)]
pub fn kept_and_used(desk: &Desk) -> Box<Memory> {
    const HEADS: usize = 12_288;
    const STARTS: usize = 16_384;
    const COLUMNS: usize = 64;
    let mut kept = kept(desk);
    let used = usize::from(kept.catalog()[STARTS + COLUMNS]);
    kept.catalog_mut()[HEADS + used..STARTS].fill(0);
    kept.keys_mut()[used..].fill(0);
    kept
}
