//! `diff`: what came and went between two designs, title and source included, by names; knots before and after; and which questions are answered more or
//! less often.

use codespan_reporting::term::termcolor::Color;
use design::{
    column_kind, link_line, load_line, name, question_line, source_line, table_line, title_line,
    Design, Place,
};
use serde::Serialize;

use crate::cost::{self, Costs};
use crate::facts::{Facts, Outcome};
use crate::file::File;
use crate::json::link_names;
use crate::library::Refused;
use crate::output::Page;
use crate::status::Status;

/// A line of a design, by which it is known, and where it stands.
#[derive(Clone, Debug, Serialize)]
#[serde(transparent)]
struct Line {
    text: String,
    #[serde(skip)]
    number: usize,
}

/// What came and what went.
#[derive(Debug, Default, Serialize)]
pub struct CameAndWent {
    came: Vec<Line>,
    went: Vec<Line>,
}

/// Knots before and after, by the links' texts.
#[derive(Debug, Serialize)]
pub struct Knots {
    before: Vec<Vec<String>>,
    after: Vec<Vec<String>>,
}

/// A question of both designs whose verdict is another one.
#[derive(Debug, Serialize)]
pub struct Changed {
    text: String,
    before: &'static str,
    after: &'static str,
    #[serde(skip)]
    better: bool,
}

/// All changes.
#[derive(Debug, Serialize)]
pub struct Changes {
    /// The title and the source.
    head: CameAndWent,
    tables: CameAndWent,
    links: CameAndWent,
    loads: CameAndWent,
    questions: CameAndWent,
    knots: Knots,
    verdicts: Vec<Changed>,
    /// Questions of the new design alone that are never answered.
    never: Vec<String>,
    /// What loads cost, if a database was named.
    #[serde(skip_serializing_if = "Option::is_none")]
    pub costs: Option<Vec<Costs>>,
}

impl Changes {
    /// What differs between two files without errors.
    pub fn between(old: &File, new: &File) -> Result<Changes, Refused> {
        let (Some(before), Some(after)) = (old.design(), new.design()) else {
            unreachable!("both designs were accepted");
        };
        let (old_facts, new_facts) = (Facts::of(before)?, Facts::of(after)?);
        Ok(Changes {
            head: came_and_went(&head(old, before), &head(new, after)),
            tables: came_and_went(&tables(old, before), &tables(new, after)),
            links: came_and_went(&links(old, before), &links(new, after)),
            loads: came_and_went(&loads(old, before), &loads(new, after)),
            questions: came_and_went(&questions(old, before), &questions(new, after)),
            knots: Knots {
                before: knots(before, &old_facts),
                after: knots(after, &new_facts),
            },
            verdicts: verdicts(before, &old_facts, after, &new_facts),
            never: never(before, after, &new_facts),
            costs: None,
        })
    }

    /// A warning if something got worse: a knot came, a question is answered less often, or a new one never, or a load doesn't fit any more.
    pub fn status(&self) -> Status {
        let knot_came = self
            .knots
            .after
            .iter()
            .any(|knot| !self.knots.before.contains(knot));
        let worse = self.verdicts.iter().any(|changed| !changed.better);
        let unfit = self.costs.iter().flatten().any(Costs::is_worse);
        match knot_came || worse || unfit || !self.never.is_empty() {
            true => Status::Warned,
            false => Status::Good,
        }
    }

    /// What came and went, in the order of a design.
    fn kinds(&self) -> [&CameAndWent; 5] {
        let Changes {
            head,
            tables,
            links,
            loads,
            questions,
            ..
        } = self;
        [head, tables, links, loads, questions]
    }

    fn is_empty(&self) -> bool {
        let mut kinds = self.kinds().into_iter();
        kinds.all(|kind| kind.came.is_empty() && kind.went.is_empty())
    }
}

fn came_and_went(before: &[Line], after: &[Line]) -> CameAndWent {
    let without = |lines: &[Line], others: &[Line]| {
        let is_new = |line: &&Line| others.iter().all(|other| other.text != line.text);
        lines.iter().filter(is_new).cloned().collect()
    };
    CameAndWent {
        came: without(after, before),
        went: without(before, after),
    }
}

/// The lines of the title and of the source.
fn head(file: &File, design: &Design) -> Vec<Line> {
    let spans = &file.reading.spans;
    let title = spans.title.iter().map(|span| (title_line(design), span));
    let source = design.source.iter().map(source_line).zip(&spans.source);
    let lines = title.chain(source);
    lines
        .map(|(text, span)| line(text, file.line(span)))
        .collect()
}

/// A table's own line, and one for each of its columns and of what it shows.
fn tables(file: &File, design: &Design) -> Vec<Line> {
    let spans = &file.reading.spans;
    let mut lines = Vec::new();
    for (number, table) in design.tables.iter().enumerate() {
        lines.push(line(table_line(table), file.line(&spans.tables[number])));
        for (column, declared) in table.columns.iter().enumerate() {
            let place = Place {
                table: number,
                column,
            };
            let name = design.column_name(place);
            let text = format!("column {name} {}", column_kind(declared));
            lines.push(line(text, file.line(&spans.columns[number][column])));
        }
        for (shown, span) in table.show.iter().zip(&spans.shown[number]) {
            let text = format!("show {}.{}", name(&table.name), name(shown));
            lines.push(line(text, file.line(span)));
        }
    }
    lines
}

fn line(text: String, number: usize) -> Line {
    Line { text, number }
}

fn links(file: &File, design: &Design) -> Vec<Line> {
    let numbered = design.links.iter().enumerate();
    numbered
        .map(|(number, link)| line(link_line(design, link), file.link_line(number)))
        .collect()
}

fn loads(file: &File, design: &Design) -> Vec<Line> {
    let loads = design.loads.iter().zip(&file.reading.spans.loads);
    loads
        .map(|(load, span)| line(load_line(design, load), file.line(span)))
        .collect()
}

fn questions(file: &File, design: &Design) -> Vec<Line> {
    let questions = design.questions.iter().zip(&file.reading.spans.questions);
    questions
        .map(|(question, span)| line(question_line(design, question), file.line(span)))
        .collect()
}

fn knots(design: &Design, facts: &Facts) -> Vec<Vec<String>> {
    facts
        .knots
        .iter()
        .map(|knot| link_names(design, knot))
        .collect()
}

/// Questions with one text in both designs, answered more or less often.
fn verdicts(before: &Design, old: &Facts, after: &Design, new: &Facts) -> Vec<Changed> {
    let changed = after.questions.iter().filter_map(|question| {
        let same = before
            .questions
            .iter()
            .find(|other| other.text == question.text)?;
        let (was, is) = (Outcome::of(old, same), Outcome::of(new, question));
        (was != is).then(|| Changed {
            text: question.text.clone(),
            before: was.name(),
            after: is.name(),
            better: is > was,
        })
    });
    changed.collect()
}

fn never(before: &Design, after: &Design, new: &Facts) -> Vec<String> {
    let is_new = |text: &str| {
        before
            .questions
            .iter()
            .all(|question| question.text != text)
    };
    let questions = after
        .questions
        .iter()
        .filter(|question| is_new(&question.text));
    let never = questions.filter(|question| Outcome::of(new, question) == Outcome::Never);
    never.map(|question| question.text.clone()).collect()
}

/// The report for people.
pub fn report(page: &mut Page, old: &File, new: &File, changes: &Changes) {
    if changes.is_empty() {
        page.text("title, source, tables, links, loads and questions are as before\n");
    }
    for kind in changes.kinds() {
        let went = kind.went.iter().map(|line| (Color::Red, '-', line));
        let came = kind.came.iter().map(|line| (Color::Green, '+', line));
        for (color, sign, Line { text, number }) in went.chain(came) {
            page.coloured(color, &format!("{sign} {text}"));
            page.text(&format!("  (line {number})\n"));
        }
    }
    report_knots(page, old, new, &changes.knots);
    report_questions(page, changes);
    cost::report(page, changes.costs.as_deref().unwrap_or_default());
}

fn report_knots(page: &mut Page, old: &File, new: &File, knots: &Knots) {
    let Knots { before, after } = knots;
    if before.is_empty() && after.is_empty() {
        page.text("  knots      none, as before\n");
        return;
    }
    for (word, sign, file, knots, others) in [
        ("went", '-', old, before, after),
        ("came", '+', new, after, before),
    ] {
        for knot in knots.iter().filter(|knot| !others.contains(knot)) {
            let color = if sign == '+' {
                Color::Red
            } else {
                Color::Green
            };
            page.coloured(color, &format!("  knot {word}  {}", knot.join(", ")));
            page.text(&format!(
                "  (line{} {})\n",
                if knot.len() == 1 { "" } else { "s" },
                lines(file, knot)
            ));
        }
    }
    let stayed = after.iter().filter(|knot| before.contains(knot)).count();
    if stayed > 0 {
        page.text(&format!("  knots      {stayed} as before\n"));
    }
    if after.is_empty() {
        page.text("  knots      none now: the design is even\n");
    }
}

/// The lines of links that are known by their texts.
fn lines(file: &File, knot: &[String]) -> String {
    let Some(design) = file.design() else {
        return String::new();
    };
    let numbers = knot.iter().filter_map(|name| {
        design
            .links
            .iter()
            .position(|link| design.link_name(link) == *name)
    });
    let lines: Vec<String> = numbers
        .map(|link| file.link_line(link).to_string())
        .collect();
    lines.join(", ")
}

fn report_questions(page: &mut Page, changes: &Changes) {
    for Changed {
        text,
        before,
        after,
        better,
    } in &changes.verdicts
    {
        let (word, color) = if *better {
            ("better", Color::Green)
        } else {
            ("worse", Color::Red)
        };
        page.coloured(color, &format!("  {word:9}"));
        page.text(&format!("  {text}: {before} -> {after}\n"));
    }
    for text in &changes.never {
        page.coloured(Color::Red, "  never    ");
        page.text(&format!("  {text}\n"));
    }
}
