//! `check`: all mistakes of a design, and what the library says of it.

use design::{Code, Design, Load, Place, Problem, Question, Severity};

use crate::facts::{outcome_with, Facts, Outcome};
use crate::file::File;
use crate::library::Refused;
use crate::status::Status;

/// What was found.
pub struct Checked {
    /// What the library says; nothing of a design with errors.
    pub facts: Option<Facts>,
    /// All mistakes and warnings, in the order of their places.
    pub problems: Vec<Problem>,
}

impl Checked {
    /// Checks a file.
    pub fn of(file: &File) -> Result<Checked, Refused> {
        let mut problems = file.reading.problems.clone();
        let mut facts = None;
        if let Some(design) = file.design() {
            let found = Facts::of(design)?;
            problems.extend(
                found
                    .knots
                    .iter()
                    .map(|knot| knot_warning(file, &found, knot)),
            );
            problems.extend(never_answered(file, design, &found)?);
            facts = Some(found);
        }
        problems.sort_by_key(|problem| problem.at.span.start);
        Ok(Checked { facts, problems })
    }

    /// How a program that has found this ends.
    pub fn status(&self) -> Status {
        let worst = self
            .problems
            .iter()
            .map(|problem| problem.code.severity())
            .min();
        match worst {
            Some(Severity::Error) => Status::Refused,
            Some(Severity::Warning) => Status::Warned,
            None => Status::Good,
        }
    }
}

/// The warning that links feed themselves.
pub fn knot_warning(file: &File, facts: &Facts, knot: &[usize]) -> Problem {
    let spans = &file.reading.spans.links;
    let (first, rest) = (knot[0], &knot[1..]);
    let message = match rest {
        [] => "this link feeds itself: one load can bring in the whole house".to_string(),
        [_] => "these two links feed each other: one load can bring in the whole house".into(),
        _ => format!(
            "these {} links feed each other: one load can bring in the whole house",
            knot.len()
        ),
    };
    let whole = |link: usize| spans[link].0.start..spans[link].1.end;
    let problem = Problem::new(Code::W01, whole(first), message);
    let problem = rest
        .iter()
        .fold(problem, |problem, &link| problem.also(whole(link), ""));
    let problem = match rest {
        [] => problem.label("what it brings in brings in more by it"),
        _ => problem,
    };
    problem.note(untying(file, facts, knot))
}

/// How a knot is untied.
pub fn untying(file: &File, facts: &Facts, knot: &[usize]) -> String {
    let alone = |link: &usize| facts.untied_by.contains(link);
    let untying: Vec<usize> = knot.iter().copied().filter(alone).collect();
    match (&untying[..], knot) {
        ([], _) => format!(
            "to untie this knot: take out {}; others are left then",
            one_of(file, knot)
        ),
        _ if untying.len() == 1 && facts.untied_by.len() == 1 => {
            format!(
                "to untie the design: take out {}; no other single link does",
                one_of(file, &untying)
            )
        }
        _ => format!("to untie the design: take out {}", one_of(file, &untying)),
    }
}

/// One of some links, by their lines.
pub fn one_of(file: &File, links: &[usize]) -> String {
    match links {
        [_] => lines(file, links),
        _ => format!("one of the {}", lines(file, links)),
    }
}

/// The lines of some links.
pub fn lines(file: &File, links: &[usize]) -> String {
    let lines: Vec<String> = links
        .iter()
        .map(|&link| file.link_line(link).to_string())
        .collect();
    match &lines[..] {
        [line] => format!("line {line}"),
        _ => format!("lines {}", lines.join(", ")),
    }
}

/// The warnings that questions are never answered, each with the load that would change it.
fn never_answered(file: &File, design: &Design, facts: &Facts) -> Result<Vec<Problem>, Refused> {
    let mut problems = Vec::new();
    for (question, span) in design.questions.iter().zip(&file.reading.spans.questions) {
        if Outcome::of(facts, question) != Outcome::Never {
            continue;
        }
        let message = format!("the desk never answers \"{}\"", question.text);
        let problem = Problem::new(Code::W02, span.clone(), message);
        problems.push(match opening_load(design, question)? {
            Some(note) => problem.note(note),
            None => problem,
        });
    }
    Ok(problems)
}

/// The line of a load by which a question would be answered, as the library says of the design with it; where there are as many loads as may be,
/// with it in the place of another one.
fn opening_load(design: &Design, question: &Question) -> Result<Option<String>, Refused> {
    let load = Load {
        name: load_name(design, question.column),
        column: question.column,
        values: None,
    };
    let line = design::load_line(design, &load);
    let mut design = design.clone();
    let full = design.loads.len() == design::MOST_LOADS;
    if full {
        design.loads.pop();
    }
    let opened = outcome_with(&design, load, question)? > Outcome::Never;
    Ok(opened.then(|| match full {
        true => format!("would need, in the place of another load: {line}"),
        false => format!("would need: {line}"),
    }))
}

/// A name for a load by a column that no load has yet.
fn load_name(design: &Design, place: Place) -> String {
    let column = &design.column(place).name;
    let short = ["_id", "_code", "_no"]
        .iter()
        .find_map(|end| column.strip_suffix(end));
    let names = [short.unwrap_or(column).to_string(), column.clone()];
    let numbered = (2..).map(|number| format!("{column}_{number}"));
    let free =
        |name: &String| !name.is_empty() && design.loads.iter().all(|load| load.name != *name);
    names
        .into_iter()
        .chain(numbered)
        .find(free)
        .unwrap_or_default()
}
