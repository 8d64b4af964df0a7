//! The example scripts: their reports and their way through the notation.

use std::path::Path;

use compare::examples::{examples, Example};
use notation::{assemble, disassemble};

fn all() -> Vec<Example> {
    let directory = Path::new(env!("CARGO_MANIFEST_DIR")).join("../../examples");
    let examples = examples(&directory).expect("the examples' directory");
    assert!(examples.len() >= 3, "only {} examples", examples.len());
    examples
}

#[test]
fn every_example_gives_the_report_beside_it() {
    for Example {
        path,
        script,
        report,
    } in all()
    {
        let expected = String::from_utf8(report).expect("text");
        assert_eq!(reference::report(&script), expected, "{}", path.display());
    }
}

#[test]
fn every_example_survives_disassembling() {
    for Example { path, script, .. } in all() {
        let plain = disassemble(&script);
        assert_eq!(assemble(&plain), Ok(script), "{}", path.display());
        assert!(!plain.contains("bytes"), "{}", path.display());
    }
}
