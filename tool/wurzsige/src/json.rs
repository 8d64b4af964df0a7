//! What programs read: one object to a line, with the keys that the tool's page names.

use design::{Design, Problem, Severity};
use serde::Serialize;

use crate::check::Checked;
use crate::facts::{Facts, Outcome};
use crate::file::File;
use crate::library::most_rounds;

/// `check`.
#[derive(Serialize)]
pub struct Check {
    design: Option<String>,
    accepted: bool,
    even: Option<bool>,
    knots: Vec<Vec<String>>,
    untied_by: Vec<String>,
    rounds: Option<usize>,
    seen_is_all: Vec<String>,
    questions: Vec<Question>,
    problems: Vec<Told>,
}

/// A question with its verdict.
#[derive(Serialize)]
struct Question {
    text: String,
    verdict: &'static str,
}

/// A mistake or warning.
#[derive(Serialize)]
pub struct Told {
    code: &'static str,
    severity: &'static str,
    line: usize,
    column: usize,
    message: String,
}

impl Told {
    fn of(file: &File, problem: &Problem) -> Told {
        let position = problem.position(&file.text);
        Told {
            code: problem.code.name(),
            severity: severity(problem.code.severity()),
            line: position.line,
            column: position.column,
            message: problem.message.clone(),
        }
    }
}

fn severity(severity: Severity) -> &'static str {
    match severity {
        Severity::Error => "error",
        Severity::Warning => "warning",
    }
}

impl Check {
    /// What was found in a file.
    pub fn of(file: &File, checked: &Checked) -> Check {
        let problems = checked
            .problems
            .iter()
            .map(|problem| Told::of(file, problem));
        let mut check = Check::refused(problems.collect());
        check.design = file.reading.title.clone();
        if let (Some(design), Some(facts)) = (file.design(), &checked.facts) {
            check.add(design, facts);
        }
        check
    }

    /// A file that isn't text.
    pub fn not_text(not_text: &design::NotText) -> Check {
        let code = design::Code::E001;
        Check::refused(vec![Told {
            code: code.name(),
            severity: severity(code.severity()),
            line: not_text.line,
            column: not_text.column,
            message: not_text.message.clone(),
        }])
    }

    fn refused(problems: Vec<Told>) -> Check {
        Check {
            design: None,
            accepted: false,
            even: None,
            knots: Vec::new(),
            untied_by: Vec::new(),
            rounds: None,
            seen_is_all: Vec::new(),
            questions: Vec::new(),
            problems,
        }
    }

    fn add(&mut self, design: &Design, facts: &Facts) {
        self.accepted = true;
        self.even = Some(facts.is_even());
        self.knots = facts
            .knots
            .iter()
            .map(|knot| link_names(design, knot))
            .collect();
        self.untied_by = link_names(design, &facts.untied_by);
        self.rounds = facts.is_even().then(|| most_rounds(design.tables.len()));
        let seen = facts.seen_is_all(design).into_iter();
        self.seen_is_all = seen.map(|place| design.column_name(place)).collect();
        let questions = design.questions.iter().map(|question| Question {
            text: question.text.clone(),
            verdict: Outcome::of(facts, question).name(),
        });
        self.questions = questions.collect();
    }
}

/// Links by their texts.
pub fn link_names(design: &Design, links: &[usize]) -> Vec<String> {
    links
        .iter()
        .map(|&link| design.link_name(&design.links[link]))
        .collect()
}

/// An object on a line of its own.
pub fn line(object: &impl Serialize) -> Vec<u8> {
    // strings, numbers, lists and objects can always be written
    let mut line = serde_json::to_vec(object).expect("JSON");
    line.push(b'\n');
    line
}
