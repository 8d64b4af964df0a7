//! Links: their columns, the classes that they make, and none twice.

use crate::build::Builder;
use crate::design::{Link, Place, Role};
use crate::item::LinkItem;
use crate::problem::{Code, Problem};
use crate::span::Span;
use crate::types::{Classes, Conflict};

pub(crate) fn resolve(builder: &mut Builder) {
    let mut classes = Classes::default();
    for item in std::mem::take(&mut builder.links) {
        let source = builder.resolve(&item.arrow.source);
        let target = builder.resolve(&item.arrow.target);
        let (Some(source), Some(target)) = (source, target) else {
            builder.lose_link(item.arrow.span());
            continue;
        };
        add(builder, &mut classes, item, source, target);
    }
}

fn add(builder: &mut Builder, classes: &mut Classes, item: LinkItem, source: Place, target: Place) {
    let span = item.arrow.span();
    let spans = (item.arrow.source.span(), item.arrow.target.span());
    let same = |link: &Link| (link.source, link.target) == (source, target);
    if let Some(first) = builder.design.links.iter().position(same) {
        let message = format!("the link {} stands here twice", item.arrow.text());
        let problem = Problem::new(Code::E014, span, message);
        let (from, to) = builder.spans.links[first].clone();
        builder.problem(problem.also(from.start..to.end, "the first time"));
        return;
    }
    let unlinked = [(source, &spans.0), (target, &spans.1)]
        .into_iter()
        .filter_map(|(place, span)| measure(builder, place, span, "a link"))
        .collect::<Vec<_>>();
    if unlinked.is_empty() {
        if let Err(conflict) = classes.join(builder, source, target) {
            let problem = different(builder, source, target, &spans, conflict);
            builder.problem(problem);
        }
        let warning = one_sided(builder, source, target, &spans);
        builder.problems.extend(warning);
    }
    builder.problems.extend(unlinked);
    builder.design.links.push(Link {
        source,
        target,
        words: item.words,
    });
    builder.spans.links.push(spans);
}

/// The mistake that a measure stands where a value is looked for.
pub(crate) fn measure(builder: &Builder, place: Place, span: &Span, what: &str) -> Option<Problem> {
    let name = builder.design.column_name(place);
    if builder.design.column(place).role != Role::Measure {
        return None;
    }
    let message = format!("{name} is a measure, and {what} can't use it");
    let problem = Problem::new(Code::E022, span.clone(), message);
    let declared = builder.spans.columns[place.table][place.column].clone();
    let problem = problem.also(declared, "declared here");
    Some(problem.help("a measure is only added up; without `measure` the column can be asked for, but not added up"))
}

fn different(
    builder: &Builder,
    source: Place,
    target: Place,
    spans: &(Span, Span),
    conflict: Conflict,
) -> Problem {
    let design = &builder.design;
    let (left, right) = (design.column(source), design.column(target));
    let (source, target) = (design.column_name(source), design.column_name(target));
    let message = match conflict {
        Conflict::Columns => format!(
            "{source} is {}, {target} is {}: no value of one ever equals one of the other",
            left.kind, right.kind
        ),
        Conflict::Classes => format!(
            "{source} and {target} are linked to columns of different types: no value of one ever equals one of the other"
        ),
    };
    let problem = Problem::new(Code::E021, spans.0.clone(), message);
    let problem = problem.also(spans.1.clone(), "");
    match left.kind.is_number() && right.kind.is_number() && left.kind != right.kind {
        true => problem.help(
            "write the same for both: `integer` for numbers from 1 to 4,294,967,295, `bigint` for others",
        ),
        false => problem.help("columns that links connect, directly or through others, have one type"),
    }
}

/// The warning that only one of two linked columns has issues.
fn one_sided(
    builder: &Builder,
    source: Place,
    target: Place,
    spans: &(Span, Span),
) -> Option<Problem> {
    let design = &builder.design;
    let (with, without, span) = match (&design.column(source).issue, &design.column(target).issue) {
        (Some(_), None) => (source, target, &spans.1),
        (None, Some(_)) => (target, source, &spans.0),
        _ => return None,
    };
    let message = format!(
        "{} has issues and {} has none: only values of issue 0 meet",
        design.column_name(with),
        design.column_name(without)
    );
    let problem = Problem::new(Code::W03, span.clone(), message);
    Some(problem.help("name the column with the issue there too: `issue COLUMN`"))
}
