//! What is given to the proved library and what it says, on designs made by chance from fixed seeds and beside the second implementation.

#[path = "../../design/tests/generate/mod.rs"]
mod generate;
mod program;

use design::{print, read, script, script_with, Design};
use generate::Random;
use program::{scratch, wurzsige, SLEEP};
use tool::check::Checked;
use tool::diff::Changes;
use tool::draw::dot;
use tool::facts::Facts;
use tool::file::File;
use tool::json;
use tool::library::Library;
use tool::output::{Page, When};
use tool::report::report;

fn sleep() -> Design {
    read(&program::text(SLEEP)).design.expect("a design")
}

fn designs(count: u64) -> impl Iterator<Item = Design> {
    (0..count).map(|seed| generate::design(&mut Random::new(seed)))
}

/// Byte for byte.
#[test]
fn the_desk_writes_back_what_the_tool_writes() {
    for design in designs(500).chain([sleep()]) {
        let bytes = script(&design);
        let library = Library::open(&bytes).expect("a design that the desk accepts");
        assert_eq!(library.write(), bytes);
    }
}

#[test]
fn the_script_of_the_sleep_laboratory() {
    let bytes = script(&sleep());
    assert_eq!(
        notation::disassemble(&bytes),
        program::expected("sleep.desk")
    );
    assert_eq!(wurzsige(&["script", SLEEP]).bytes, bytes);
    let path = scratch("sleep.script");
    let ran = wurzsige(&["script", SLEEP, "-o", path.to_str().expect("a name")]);
    assert_eq!((ran.output.as_str(), ran.status), ("", 0));
    assert_eq!(std::fs::read(path).expect("bytes"), bytes);
}

/// Whether the second implementation calls a design with some of its links uneven.
fn is_uneven(design: &Design, links: &[usize]) -> bool {
    let (design, _) =
        reference::design::Design::read(&script_with(design, links)).expect("accepted");
    design.evenness() != reference::desk::Answer::Even
}

fn without(links: &[usize], out: usize) -> Vec<usize> {
    links.iter().copied().filter(|&link| link != out).collect()
}

/// Every set of links that is uneven, but not without any one of its links.
fn all_knots(design: &Design) -> Vec<Vec<usize>> {
    let sets = 0..1u32 << design.links.len();
    let links = |set: u32| {
        (0..design.links.len())
            .filter(move |link| set >> link & 1 == 1)
            .collect::<Vec<_>>()
    };
    let is_knot = |links: &Vec<usize>| {
        is_uneven(design, links)
            && links
                .iter()
                .all(|&out| !is_uneven(design, &without(links, out)))
    };
    sets.map(links).filter(is_knot).collect()
}

#[test]
fn knots_are_all_knots() {
    let mut uneven = 0;
    let mut several = 0;
    for mut design in designs(400) {
        design.questions.clear();
        design.links.truncate(7);
        let facts = Facts::of(&design).expect("accepted");
        let mut found = facts.knots.clone();
        assert!(found.is_sorted_by_key(Vec::len), "the smallest come first");
        found.sort();
        let mut expected = all_knots(&design);
        expected.sort();
        assert_eq!(found, expected);
        uneven += usize::from(!facts.is_even());
        several += usize::from(found.len() > 1);
    }
    assert!(uneven > 20 && several > 20, "{uneven} {several}");
}

#[test]
fn links_that_untie_a_design_do() {
    for mut design in designs(300) {
        design.questions.clear();
        let all: Vec<usize> = (0..design.links.len()).collect();
        let facts = Facts::of(&design).expect("accepted");
        assert_eq!(facts.is_even(), !is_uneven(&design, &all));
        let unties = |link: &usize| !facts.is_even() && !is_uneven(&design, &without(&all, *link));
        assert_eq!(
            facts.untied_by,
            all.iter().copied().filter(unties).collect::<Vec<_>>()
        );
    }
}

/// Whatever a design has, it can be shown to people and programs, drawn and compared.
#[test]
fn every_design_can_be_shown() {
    let file = |design: &Design| File::new("design".into(), &print(design));
    let mut last = file(&Design::default());
    for design in designs(200) {
        let file = file(&design);
        let checked = Checked::of(&file).expect("accepted");
        let mut page = Page::for_output(When::Never);
        report(&mut page, &file, &checked);
        let shown = String::from_utf8(page.into_bytes()).expect("text");
        assert!(shown.contains("  accepted   "), "{shown}");
        let line = json::line(&json::Check::of(&file, &checked));
        let object: serde_json::Value = serde_json::from_slice(&line).expect("an object");
        assert_eq!(
            object["even"] == true,
            shown.contains("  even       "),
            "{shown}"
        );
        assert!(dot(&file).expect("accepted").ends_with("}\n"));
        let changes = Changes::between(&last, &file).expect("accepted");
        let object: serde_json::Value =
            serde_json::from_slice(&json::line(&changes)).expect("an object");
        let links = object["links"]["came"].as_array().map(Vec::len);
        assert!(links <= Some(design.links.len()));
        last = file;
    }
}
