//! What the page says of the design alone: whether it is even, its knots, the columns where seeing is enough, its questions, links and loads.

use design::{Design, Link, Question, Span};

use super::markup::{element, void, with, Markup};
use super::table::{table, Column, Row};
use super::{paragraph, section};
use crate::check::{one_of, untying, Checked};
use crate::facts::{Facts, Outcome};
use crate::file::File;
use crate::library::most_rounds;
use crate::report::{bound, knot_count, never_notes, reason};

/// The design in figures.
pub fn glance(design: &Design, facts: &Facts) -> Markup {
    let of = |count: usize, most: usize| format!("{count} of {most}");
    let outcomes = |outcome| {
        let is_so = |question: &&Question| Outcome::of(facts, question) == outcome;
        design.questions.iter().filter(is_so).count()
    };
    let rounds = match facts.is_even() {
        true => format!("at most {}", most_rounds(design.tables.len())),
        false => "no bound".into(),
    };
    let figures = [
        ("Tables", of(design.tables.len(), design::MOST_TABLES)),
        ("Links", of(design.links.len(), design::MOST_LINKS)),
        ("Loads", of(design.loads.len(), design::MOST_LOADS)),
        ("Knots", facts.knots.len().to_string()),
        ("Rounds of a load", rounds),
        (
            "Questions always answered here",
            of(outcomes(Outcome::Always), design.questions.len()),
        ),
        (
            "Questions answered once a row is here",
            of(outcomes(Outcome::OnceHere), design.questions.len()),
        ),
        (
            "Questions never answered here",
            of(outcomes(Outcome::Never), design.questions.len()),
        ),
    ];
    let figures = figures.into_iter().map(|(what, figure)| {
        let pair = [element("dt", [what.into()]), element("dd", [figure.into()])];
        element("div", pair)
    });
    with("dl", &[("class", "glance")], figures)
}

/// Whether the design is even, and what unties it.
pub fn evenness(file: &File, design: &Design, facts: &Facts) -> Markup {
    let mut parts = vec![match (facts.is_even(), &facts.untied_by[..]) {
        (true, _) => paragraph(&format!("The design is even: {}.", bound(design))),
        (false, []) => paragraph(&format!(
            "The design is uneven: it has {}. No single link makes it even by being taken out.",
            knot_count(facts)
        )),
        (false, links) => paragraph(&format!(
            "The design is uneven: it has {}. Without {} it is even, and then {}.",
            knot_count(facts),
            one_of(file, links),
            bound(design)
        )),
    }];
    if !facts.is_even() {
        parts.push(paragraph("Links that feed themselves can bring in more and more rows, round by round, as long as there are any: one load can bring in the whole house."));
    }
    let numbered = facts.knots.iter().enumerate();
    parts.extend(numbered.map(|(number, knot)| knot_part(file, design, facts, number + 1, knot)));
    section("even", "Knots and rounds", parts)
}

fn knot_part(file: &File, design: &Design, facts: &Facts, number: usize, knot: &[usize]) -> Markup {
    let links = knot.iter().map(|&number| {
        let link = &design.links[number];
        let line = format!("line {}: ", file.link_line(number));
        let mut parts = vec![line.into(), code(&design.link_name(link))];
        parts.extend(
            link.words
                .iter()
                .flat_map(|_| [", ".into(), words(design, link)]),
        );
        element("li", parts)
    });
    let parts = [
        element("h3", [format!("Knot {number}").into()]),
        element("ul", links),
        paragraph(&format!("{}.", capital(&untying(file, facts, knot)))),
    ];
    with("div", &[("class", "knotted")], parts)
}

/// The columns where seeing is enough.
pub fn seen(design: &Design, facts: &Facts) -> Markup {
    let seen = facts.seen_is_all(design);
    let parts = match seen.is_empty() {
        true => vec![paragraph("There is no such column: a value that is seen on a screen may have more rows that aren't here.")],
        false => {
            let names = seen.into_iter().map(|place| element("li", [code(&design.column_name(place))]));
            vec![
                paragraph("A value that is seen on the screen in one of these columns is complete: all of its rows are here. It needs no grey."),
                with("ul", &[("class", "columns")], names),
            ]
        }
    };
    section("seen", "Columns where seeing is enough", parts)
}

/// The questions with their verdicts.
pub fn questions(file: &File, design: &Design, facts: &Facts, checked: &Checked) -> Markup {
    let columns = [
        Column::text("Question"),
        Column::text("Answered here"),
        Column::text("Because"),
    ];
    if design.questions.is_empty() {
        let none = [paragraph("The design has no questions.")];
        return section("questions", "Questions", none);
    }
    let questions = design.questions.iter().zip(&file.reading.spans.questions);
    let rows = questions.map(|(question, span)| {
        Row::new([
            Markup::name(&question.text),
            verdict(Outcome::of(facts, question)),
            because(file, design, facts, checked, question, span),
        ])
    });
    let caption = "What becomes of each question, whatever the rows are";
    section("questions", "Questions", [table(caption, &columns, rows)])
}

/// A verdict, by its name and by its colour.
fn verdict(outcome: Outcome) -> Markup {
    let class = match outcome {
        Outcome::Always => "verdict always",
        Outcome::OnceHere => "verdict once",
        Outcome::Never => "verdict never",
    };
    with("span", &[("class", class)], [outcome.name().into()])
}

fn because(
    file: &File,
    design: &Design,
    facts: &Facts,
    checked: &Checked,
    question: &Question,
    span: &Span,
) -> Markup {
    let mut parts = vec![Markup::text(&reason(file, design, facts, question))];
    for note in never_notes(checked, span) {
        parts.extend([void("br", &[]), Markup::text(note)]);
    }
    parts.into_iter().collect()
}

/// The links in words.
pub fn links(file: &File, design: &Design, facts: &Facts) -> Markup {
    let columns = [
        Column::text("Link"),
        Column::number("Line"),
        Column::text("In words"),
        Column::text("Knot"),
    ];
    if design.links.is_empty() {
        let none = [paragraph(
            "The design has no links: a load brings in its own rows and no others.",
        )];
        return section("links", "Links in words", none);
    }
    let numbered = design.links.iter().enumerate();
    let rows = numbered.map(|(number, link)| {
        let knots = facts.knots.iter().enumerate();
        let knots = knots.filter(|(_, knot)| knot.contains(&number));
        let knots: Vec<String> = knots.map(|(knot, _)| (knot + 1).to_string()).collect();
        Row::new([
            code(&design.link_name(link)),
            file.link_line(number).to_string().into(),
            words(design, link),
            knots.join(", ").into(),
        ])
    });
    let caption = "What a row that is here brings along";
    section("links", "Links in words", [table(caption, &columns, rows)])
}

/// A link as a sentence: of the row that it brings, and of the one that brings it.
fn words(design: &Design, link: &Link) -> Markup {
    let table = |table: usize| Markup::name(&design.tables[table].name);
    let (source, target) = (table(link.source.table), table(link.target.table));
    let words = match &link.words {
        Some(words) => element("em", [Markup::name(words)]),
        None => "comes along with".into(),
    };
    [target, " ".into(), words, " ".into(), source]
        .into_iter()
        .collect()
}

/// The loads, where no database says what they bring.
pub fn loads(design: &Design) -> Markup {
    let columns = [
        Column::text("Load"),
        Column::text("Column"),
        Column::text("Values"),
    ];
    if design.loads.is_empty() {
        let none = [paragraph(
            "The design has no loads: nothing can be asked for by name.",
        )];
        return section("loads", "Loads", none);
    }
    let rows = design.loads.iter().map(|load| {
        let values = match load.values {
            Some((low, high)) => format!("{low} to {high}"),
            None => "every value".into(),
        };
        Row::new([
            Markup::name(&load.name),
            code(&design.column_name(load.column)),
            values.into(),
        ])
    });
    let caption = "What somebody at the desk can ask for by name";
    let without = paragraph("This page was made without a database. With one (--source) it shows here what each value drags in, and why.");
    section("loads", "Loads", [table(caption, &columns, rows), without])
}

/// A name as a design writes it.
pub fn code(text: &str) -> Markup {
    element("code", [Markup::name(text)])
}

/// A sentence's beginning.
fn capital(text: &str) -> String {
    let mut characters = text.chars();
    let first = characters
        .next()
        .map(|first| first.to_uppercase().to_string());
    first.unwrap_or_default() + characters.as_str()
}
