//! Reader and printer undo each other, on designs made by chance from fixed seeds, and on the sleep laboratory.

mod generate;

use design::{print, read, Cells, Single, MOST_CELLS};
use generate::{design, Random};

const DESIGNS: u64 = 3_000;

#[test]
fn a_printed_design_reads_as_itself() {
    for seed in 0..DESIGNS {
        let made = design(&mut Random::new(seed));
        let text = print(&made);
        let reading = read(&text);
        let errors: Vec<_> = reading
            .problems
            .iter()
            .filter(|problem| problem.code.name().starts_with('E'))
            .collect();
        assert!(errors.is_empty(), "seed {seed}: {errors:#?}\n{text}");
        assert_eq!(reading.design.as_ref(), Some(&made), "seed {seed}\n{text}");
        assert_eq!(print(&made), text);
    }
}

/// What was read has its places where its parts stand.
#[test]
fn places_are_those_of_the_parts() {
    for seed in 0..DESIGNS / 10 {
        let made = design(&mut Random::new(seed));
        let text = print(&made);
        let spans = read(&text).spans;
        for (link, (source, target)) in made.links.iter().zip(&spans.links) {
            assert_eq!(text[source.clone()], made.column_name(link.source));
            assert_eq!(text[target.clone()], made.column_name(link.target));
        }
        for (table, span) in made.tables.iter().zip(&spans.tables) {
            assert_eq!(text[span.clone()], design::name(&table.name));
        }
        for (table, spans) in made.tables.iter().zip(&spans.shown) {
            let shown = spans.iter().map(|span| text[span.clone()].to_string());
            let names = table.show.iter().map(|name| design::name(name));
            assert_eq!(shown.collect::<Vec<_>>(), names.collect::<Vec<_>>());
        }
        assert_eq!(spans.loads.len(), made.loads.len());
        assert_eq!(spans.questions.len(), made.questions.len());
    }
}

/// The generator reaches what it is for.
#[test]
fn the_designs_are_of_all_kinds() {
    let designs: Vec<_> = (0..DESIGNS)
        .map(|seed| design(&mut Random::new(seed)))
        .collect();
    let texts: Vec<String> = designs.iter().map(print).collect();
    for words in [
        " by ",
        " total ",
        " values ",
        " issue ",
        " unique ",
        "measure ",
        " from ",
        "\\\"",
        "\\\\",
        "source sqlite",
        "source postgres",
        "`show`",
        "{{",
    ] {
        assert!(texts.iter().any(|text| text.contains(words)), "{words}");
    }
    for kind in Single::ALL.map(Single::name) {
        let of_kind = |text: &String| text.contains(&format!(" {kind}\n"));
        assert!(texts.iter().any(of_kind), "{kind}");
    }
    assert!(designs.iter().any(|design| design.tables.len() == 8));
    assert!(designs.iter().any(|design| design.links.len() == 16));
    assert!(designs.iter().any(|design| design.loads.len() == 8));
    assert!(designs.iter().any(|design| design
        .questions
        .iter()
        .any(|question| question.joins.len() == 4)));
    let full = |design: &design::Design| {
        (0..design.tables.len()).any(|table| Cells::of(design).columns(table).len() == MOST_CELLS)
    };
    assert!(designs.iter().any(full));
}

/// The examples' text, however it is spaced and commented, prints as a text that reads as the same design.
#[test]
fn the_sleep_laboratory() {
    let text = include_str!("../../../examples/sleep.design");
    let reading = read(text);
    assert_eq!(reading.problems, []);
    let printed = print(&reading.design.clone().expect("a design"));
    assert_eq!(read(&printed).design, reading.design);
    assert_eq!(print(&read(&printed).design.expect("a design")), printed);
}
