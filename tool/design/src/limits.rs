//! The largest counts, each told where the first item past it stands.

use crate::build::Builder;
use crate::cells::{is_used, Cells, MOST_CELLS};
use crate::problem::{Code, Problem};
use crate::span::{joined, Span};

/// The most tables of a design.
pub const MOST_TABLES: usize = 8;

/// The most links of a design.
pub const MOST_LINKS: usize = 16;

/// The most loads of a design.
pub const MOST_LOADS: usize = 8;

pub(crate) fn check(builder: &mut Builder) {
    let (spans, lost) = (&builder.spans, &builder.lost);
    let links: Vec<Span> = spans
        .links
        .iter()
        .map(|(source, target)| joined(source, target))
        .collect();
    let passed = [
        (
            Code::E040,
            past(MOST_TABLES, &spans.tables, &lost.tables),
            "a design has at most 8 tables",
            "the ninth",
        ),
        (
            Code::E042,
            past(MOST_LINKS, &links, &lost.links),
            "a design has at most 16 links",
            "the seventeenth",
        ),
        (
            Code::E043,
            past(MOST_LOADS, &spans.loads, &lost.loads),
            "a design has at most 8 loads",
            "the ninth",
        ),
    ];
    for (code, span, message, label) in passed {
        let problem = span.map(|span| Problem::new(code, span, message).label(label));
        builder.problems.extend(problem);
    }
    check_cells(builder);
    check_used(builder);
}

/// Where the first item past a count stands, of those that name something and those that don't.
fn past(count: usize, read: &[Span], lost: &[Span]) -> Option<Span> {
    let mut all = [read, lost].concat();
    all.sort_by_key(|span| span.start);
    all.get(count).cloned()
}

fn check_cells(builder: &mut Builder) {
    let cells = Cells::of(&builder.design);
    for (number, table) in builder.design.tables.iter().enumerate() {
        let Some(&ninth) = cells.columns(number).get(MOST_CELLS) else {
            continue;
        };
        let message = format!("a row has at most 8 cells, and `{}` needs more", table.name);
        let span = builder.spans.columns[number][ninth].clone();
        let problem =
            Problem::new(Code::E041, span, message).label("the ninth column that is used");
        builder.problems.push(problem.help(
            "a column takes a cell if a link, a load, a question or a total uses it: use fewer of them, or put two that only stand together into a tuple",
        ));
    }
}

/// A table that nothing uses takes the place of another one.
fn check_used(builder: &mut Builder) {
    if builder.lost_links || !builder.problems.is_empty() {
        return;
    }
    for (number, table) in builder.design.tables.iter().enumerate() {
        if !is_used(&builder.design, number) {
            let message = format!("no link, load or question uses table `{}`", table.name);
            let span = builder.spans.tables[number].clone();
            let problem = Problem::new(Code::W04, span, message);
            builder
                .problems
                .push(problem.help("take it out, or link it to what brings its rows along"));
        }
    }
}
