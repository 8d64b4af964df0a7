//! The report of `check` for people.

use codespan_reporting::term::termcolor::Color;
use design::{Code, Design, Problem, Question, Role, Severity, Span};

use crate::check::{knot_warning, lines, one_of, Checked};
use crate::facts::{Facts, Outcome};
use crate::file::File;
use crate::json::link_names;
use crate::library::most_rounds;
use crate::output::Page;

/// How many knots are shown with their lines; of more the links' names and the lines' numbers.
const WHOLE_KNOTS: usize = 8;

/// Adds the report to a page.
pub fn report(page: &mut Page, file: &File, checked: &Checked) {
    let Checked { facts, problems } = checked;
    let (Some(design), Some(facts)) = (file.design(), facts) else {
        problems
            .iter()
            .for_each(|problem| page.problem(file, problem));
        return refused(page, file, problems);
    };
    accepted(page, file, design);
    // knots come by their size, and questions stand in a list of their own
    let by_place = |problem: &&Problem| ![Code::W01, Code::W02].contains(&problem.code);
    for problem in problems.iter().filter(by_place) {
        page.problem(file, problem);
    }
    knots(page, file, design, facts);
    evenness(page, file, design, facts);
    seen(page, design, facts);
    questions(page, file, design, checked, facts);
}

/// All knots, the smallest ones first.
fn knots(page: &mut Page, file: &File, design: &Design, facts: &Facts) {
    let whole = facts.knots.len().min(WHOLE_KNOTS);
    for knot in &facts.knots[..whole] {
        page.problem(file, &knot_warning(file, facts, knot));
    }
    if facts.knots.len() > whole {
        page.text("and these links feed each other too:\n");
    }
    for knot in &facts.knots[whole..] {
        let names = link_names(design, knot).join(", ");
        page.text(&format!("  {names}  ({})\n", lines(file, knot)));
    }
    if facts.knots.len() > whole {
        page.text("\n");
    }
}

fn accepted(page: &mut Page, file: &File, design: &Design) {
    page.text(&format!("{}: {}\n", file.name, design.title));
    let (tables, links, loads) = (design.tables.len(), design.links.len(), design.loads.len());
    page.coloured(Color::Green, "  accepted   ");
    page.text(&format!(
        "{tables} of 8 tables, {links} of 16 links, {loads} of 8 loads\n\n"
    ));
}

fn refused(page: &mut Page, file: &File, problems: &[Problem]) {
    let is_error = |problem: &&Problem| problem.code.severity() == Severity::Error;
    let mistakes = match problems.iter().filter(is_error).count() {
        1 => "1 mistake".to_string(),
        count => format!("{count} mistakes"),
    };
    page.coloured(Color::Red, "refused");
    page.text(&format!(
        ": {} has {mistakes}; `wurzsige explain CODE` has a page on each\n",
        file.name
    ));
}

fn evenness(page: &mut Page, file: &File, design: &Design, facts: &Facts) {
    let bound = bound(design);
    if facts.is_even() {
        page.coloured(Color::Green, "  even       ");
        return page.text(&format!("{bound}\n"));
    }
    page.coloured(Color::Yellow, "  uneven     ");
    page.text(&knot_count(facts));
    match &facts.untied_by[..] {
        [] => page.text("; no single link makes the design even by being taken out\n"),
        links => page.text(&format!(
            "; even without {}: then {bound}\n",
            one_of(file, links)
        )),
    }
}

/// The bound on rounds of an even design.
pub fn bound(design: &Design) -> String {
    let rounds = most_rounds(design.tables.len());
    format!("every load is over after at most {rounds} rounds, whatever the rows (proved)")
}

/// How many knots there are.
pub fn knot_count(facts: &Facts) -> String {
    match facts.knots.len() {
        1 => "1 knot".to_string(),
        count => format!("{count} knots"),
    }
}

fn seen(page: &mut Page, design: &Design, facts: &Facts) {
    let seen = facts.seen_is_all(design).into_iter();
    let names: Vec<String> = seen.map(|place| design.column_name(place)).collect();
    if !names.is_empty() {
        page.coloured(Color::Green, "  seen = all ");
        page.text(&format!("{}\n", names.join(", ")));
        page.text("             a value on the screen in these columns needs no grey\n");
    }
}

fn questions(page: &mut Page, file: &File, design: &Design, checked: &Checked, facts: &Facts) {
    if !design.questions.is_empty() {
        page.text("  Questions\n");
    }
    let widths = design
        .questions
        .iter()
        .map(|question| question.text.chars().count());
    let width = widths.max().unwrap_or(0);
    for (question, span) in design.questions.iter().zip(&file.reading.spans.questions) {
        let outcome = Outcome::of(facts, question);
        page.coloured(color(outcome), &format!("    {:9}", outcome.name()));
        let reason = reason(file, design, facts, question);
        page.text(&format!("  {:width$}  {reason}\n", question.text));
        for note in never_notes(checked, span) {
            page.text(&format!("{:1$}{note}\n", "", 4 + 9 + 2 + width + 2));
        }
    }
}

/// What would have a question answered that never is: the notes of the warning at its place.
pub fn never_notes<'a>(checked: &'a Checked, span: &'a Span) -> impl Iterator<Item = &'a String> {
    let warnings = checked
        .problems
        .iter()
        .filter(move |problem| problem.code == Code::W02 && problem.at.span == *span);
    warnings.flat_map(|problem| &problem.notes)
}

fn color(outcome: Outcome) -> Color {
    match outcome {
        Outcome::Always => Color::Green,
        Outcome::OnceHere => Color::Yellow,
        Outcome::Never => Color::Red,
    }
}

/// Why a question has its outcome.
pub fn reason(file: &File, design: &Design, facts: &Facts, question: &Question) -> String {
    let verdict = facts.verdict_on(question);
    let table = |table: usize| design::name(&design.tables[table].name);
    let load = design
        .loads
        .iter()
        .find(|load| load.column == question.column);
    if let Some(load) = load.filter(|_| verdict.fetches()) {
        let name = design::name(&load.name);
        let values = match load.values {
            Some((low, high)) => format!(" if it is one of {low}..{high},"),
            None => String::new(),
        };
        return format!("loads the {name} itself,{values} while this desk holds fewer than 16");
    }
    if let Some(link) = verdict.once_linked() {
        let source = table(design.links[link].source.table);
        return format!(
            "as soon as the {source} is here (line {})",
            file.link_line(link)
        );
    }
    if verdict.once_unique() {
        let column = design.column(question.column);
        let what = if column.role == Role::Key {
            "the key"
        } else {
            "unique"
        };
        let name = design::name(&column.name);
        return format!(
            "as soon as the {} is here ({name} is {what})",
            table(question.column.table)
        );
    }
    format!(
        "no load, link or key leads to {} (W02)",
        design.column_name(question.column)
    )
}
