//! The example scripts, in lent memory.

use std::path::Path;

use compare::examples::{examples, Example};
use reference::lent::{open, step, write, Lent};

fn all() -> Vec<Example> {
    let directory = Path::new(env!("CARGO_MANIFEST_DIR")).join("../../examples");
    examples(&directory).expect("the examples' directory")
}

#[test]
fn an_opened_design_is_written_as_it_was() {
    for Example { path, script, .. } in all() {
        let mut lent = Lent::zeros();
        let end = open(&script, &mut lent).next;
        let mut out = vec![0; end];
        assert_eq!(write(&lent, &mut out), Ok(end), "{}", path.display());
        assert_eq!(out, script[..end], "{}", path.display());
    }
}

#[test]
fn every_state_of_an_example_is_lawful() {
    for Example { path, script, .. } in all() {
        let mut lent = Lent::zeros();
        let mut told = open(&script, &mut lent);
        while told.more == 1 && told.next < script.len() {
            assert_eq!(lent.desk().err(), None, "{}, {}", path.display(), told.next);
            let (words, text) = (&mut [0; 4_096], &mut [0; 16_384]);
            told = step(&script, told.next, &mut lent, words, text);
        }
        assert_eq!(told.next, script.len(), "{}", path.display());
        assert_eq!(lent.desk().err(), None, "{}", path.display());
    }
}
