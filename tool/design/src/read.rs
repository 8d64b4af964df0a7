//! A file's text to a design, with all of its mistakes.

use crate::build::Builder;
use crate::design::Design;
use crate::item::{Item, Name};
use crate::parse;
use crate::problem::{Code, Problem, Severity};
use crate::span::Span;
use crate::token::{is_word, tokens, Token};

/// What was read of a text.
#[derive(Clone, Debug)]
pub struct Reading {
    /// The design, if the text has no error.
    pub design: Option<Design>,
    /// The title, if there is one, even of a design with errors.
    pub title: Option<String>,
    /// Where the design's parts stand. They are those of the design if there is one.
    pub spans: Spans,
    /// All mistakes, in the order of their places.
    pub problems: Vec<Problem>,
}

/// Where a design's parts stand in its text, each kind in the design's order.
#[derive(Clone, Debug, Default)]
pub struct Spans {
    /// The title, with the word before it.
    pub title: Option<Span>,
    /// The source's kind and place.
    pub source: Option<Span>,
    /// The tables' names.
    pub tables: Vec<Span>,
    /// The columns' names, table by table.
    pub columns: Vec<Vec<Span>>,
    /// For each column of each table the names in its tuple; none of another type.
    pub parts: Vec<Vec<Vec<Span>>>,
    /// The names that are shown, table by table.
    pub shown: Vec<Vec<Span>>,
    /// The links' source and target columns.
    pub links: Vec<(Span, Span)>,
    /// The loads' names.
    pub loads: Vec<Span>,
    /// The questions' texts, with their quotes.
    pub questions: Vec<Span>,
}

/// Reads a design.
pub fn read(text: &str) -> Reading {
    let mut builder = Builder::new(text);
    for (start, line) in lines(text) {
        read_line(&mut builder, start, line);
    }
    let mut reading = builder.finish();
    reading
        .problems
        .sort_by_key(|problem| problem.at.span.start);
    let refused = |problem: &Problem| problem.code.severity() == Severity::Error;
    if reading.problems.iter().any(refused) {
        reading.design = None;
    }
    reading
}

/// The lines of a text, each with the byte at which it begins.
fn lines(text: &str) -> impl Iterator<Item = (usize, &str)> {
    let mut start = 0;
    text.split_inclusive('\n').map(move |line| {
        let begins = start;
        start += line.len();
        (begins, line.trim_end_matches(['\n', '\r']))
    })
}

fn read_line(builder: &mut Builder, start: usize, line: &str) {
    let indented = is_indented(line);
    let tokens = match tokens(line, start) {
        Ok(tokens) => tokens,
        Err(problem) => {
            let name = word(line, start, usize::from(!indented)).filter(|name| is_word(&name.text));
            let first = word(line, start, 0).unwrap_or_default();
            builder.faulty_line(line, first, name);
            return builder.problem(problem);
        }
    };
    if tokens.is_empty() {
        return;
    }
    let item = match indented {
        true => parse::table_item(&tokens),
        false => parse::item(&tokens),
    };
    match item {
        Ok(item) => add(builder, item, &tokens[0]),
        Err(problem) => {
            match otherwise(builder, &problem, &tokens) {
                Some(item) => add(builder, item, &tokens[0]),
                None => {
                    let name = tokens.get(usize::from(!indented)).and_then(name_of);
                    let first = Name {
                        text: parse::meant(&tokens[0]).unwrap_or(tokens[0].raw).into(),
                        span: tokens[0].span.clone(),
                    };
                    builder.faulty_line(line, first, name);
                }
            }
            builder.problem(problem);
        }
    }
}

/// Whether a line is a table's.
pub(crate) fn is_indented(line: &str) -> bool {
    line.starts_with(char::is_whitespace)
}

/// A piece between blanks of a line that can't be cut into tokens.
fn word(line: &str, start: usize, index: usize) -> Option<Name> {
    let word = line.split_whitespace().nth(index)?;
    let begins = start + (word.as_ptr() as usize - line.as_ptr() as usize);
    Some(Name {
        text: word.to_string(),
        span: begins..begins + word.len(),
    })
}

/// What a line would be with another indentation, if that is its mistake.
fn otherwise(builder: &Builder, problem: &Problem, tokens: &[Token]) -> Option<Item> {
    match problem.code {
        Code::E005 if builder.is_in_table() && parse::meant(&tokens[0]).is_none() => {
            parse::table_item(tokens).ok()
        }
        Code::E009 => parse::item(tokens).ok(),
        _ => None,
    }
}

fn name_of(token: &Token) -> Option<Name> {
    let text = token.name()?.to_string();
    let span = token.span.clone();
    Some(Name { text, span })
}

fn add(builder: &mut Builder, item: Item, first: &Token) {
    match item {
        Item::Design(title) => builder.title(title, &first.span),
        Item::Source(source) => builder.source(source),
        Item::Table(table) => builder.table(table),
        Item::Column(column) => builder.column(column),
        Item::Show(names) => builder.show(names, &first.span),
        Item::Link(link) => builder.links.push(link),
        Item::Load(load) => builder.loads.push(load),
        Item::Question(question) => builder.questions.push(question),
    }
}
