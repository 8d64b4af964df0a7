//! Whole scripts, held to the reports of the program `desk`.

#![cfg(feature = "proved")]

mod common;

use common::all_examples;
use compare::generate;
use wurzsige::{Desk, Line, lines, run};

#[test]
fn every_example_has_its_report() {
    for example in all_examples() {
        let report = run(&example.script).to_string();
        let expected = String::from_utf8(example.report).expect("text");
        assert_eq!(report, expected, "{}", example.path.display());
    }
}

#[test]
fn every_design_is_written_as_it_was_read() {
    for example in all_examples() {
        let desk = Desk::open(&example.script).expect("a design");
        let design = &example.script[..desk.operations_at()];
        let name = example.path.display();
        assert_eq!(desk.write(), design, "{name}");
        assert_eq!(desk.sizes(&[], 0).bytes, design.len() as u64, "{name}");
        let again = Desk::open(&desk.write()).expect("a design");
        assert_eq!(again.to_memory(), desk.to_memory(), "{name}");
    }
}

#[test]
fn generated_scripts_have_the_second_implementation_s_report() {
    let mut refused = 0;
    for number in 0..600 {
        let script = generate::script(11, number);
        let run = run(&script);
        refused += usize::from(matches!(run.lines[..], [Line::Refused(_)]));
        let same = run.to_string() == reference::report(&script);
        assert!(same, "{}", notation::disassemble(&script));
    }
    assert!(refused > 9 && refused < 300, "{refused} designs refused");
}

#[test]
fn an_over_long_script_is_refused_whole() {
    let mut script = notation::assemble("table 1\nend\n").expect("a script");
    script.resize(65_536, 0x14);
    assert_eq!(lines(&script).count(), 65_536 - 3);
    script.push(0x14);
    assert_eq!(run(&script).to_string(), "refused 4 0\n");
}

#[test]
fn lines_end_for_good() {
    for text in [
        "table 1\nend\neven\n",
        "table 1\nend\nbytes 0xff 0x14\n",
        "even\n",
    ] {
        let script = notation::assemble(text).expect("a script");
        let mut lines = lines(&script);
        assert!(lines.by_ref().count() > 0);
        assert_eq!(lines.next(), None);
    }
}
