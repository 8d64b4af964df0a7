//! A design as text, in one form for each design: [`crate::read`] gives the same design for it.

use crate::design::{Column, Design, Link, Load, Question, Role, Source, Table};
use crate::token::is_word;

/// The text of a design.
pub fn print(design: &Design) -> String {
    let mut blocks = vec![head(design)];
    blocks.extend(design.tables.iter().map(table));
    blocks.push(lines(
        design.links.iter().map(|link| link_line(design, link)),
    ));
    blocks.push(lines(
        design.loads.iter().map(|load| load_line(design, load)),
    ));
    let questions = design.questions.iter();
    blocks.push(lines(
        questions.map(|question| question_line(design, question)),
    ));
    blocks.retain(|block| !block.is_empty());
    blocks.join("\n")
}

/// A name as it is written: as a word, or else in backquotes.
pub fn name(name: &str) -> String {
    match is_word(name) {
        true => name.into(),
        false => format!("`{name}`"),
    }
}

/// Names with commas between them.
pub(crate) fn names(names: &[String]) -> String {
    let names: Vec<String> = names.iter().map(|text| name(text)).collect();
    names.join(", ")
}

/// A string in double quotes.
fn string(text: &str) -> String {
    format!("\"{}\"", text.replace('\\', "\\\\").replace('"', "\\\""))
}

fn lines(lines: impl Iterator<Item = String>) -> String {
    lines.map(|line| line + "\n").collect()
}

fn head(design: &Design) -> String {
    let source = design.source.iter().map(source_line);
    lines([title_line(design)].into_iter().chain(source))
}

/// The title's line.
pub fn title_line(design: &Design) -> String {
    format!("design {}", string(&design.title))
}

/// A source's line.
pub fn source_line(source: &Source) -> String {
    format!("source {} {}", source.kind.name(), string(&source.place))
}

/// A table's own line.
pub fn table_line(table: &Table) -> String {
    let mut text = format!("table {}", name(&table.name));
    if let Some(from) = &table.from {
        text += &format!(" from {from}");
    }
    if let Some(label) = &table.label {
        text += &format!(" {}", string(label));
    }
    text
}

fn table(table: &Table) -> String {
    let mut text = table_line(table) + "\n";
    let written = table.columns.iter().map(|column| column_name(&column.name));
    let width = written.map(|name| name.chars().count()).max().unwrap_or(0);
    text += &lines(
        table
            .columns
            .iter()
            .map(|column| column_line(column, width)),
    );
    if !table.show.is_empty() {
        text += &format!("    {:width$} {}\n", "show", names(&table.show));
    }
    text
}

/// A column's name at the head of its line, where `show` has a meaning of its own.
fn column_name(column: &str) -> String {
    match column {
        "show" => "`show`".into(),
        other => name(other),
    }
}

fn column_line(column: &Column, width: usize) -> String {
    let name = column_name(&column.name);
    format!("    {name:width$} {}", column_kind(column))
}

/// What stands behind a column's name on its line.
pub fn column_kind(column: &Column) -> String {
    let role = match column.role {
        Role::Plain => "",
        Role::Key => "key ",
        Role::Unique => "unique ",
        Role::Measure => "measure ",
    };
    let issue = match &column.issue {
        Some(issue) => format!(" issue {}", name(issue)),
        None => String::new(),
    };
    format!("{role}{}{issue}", column.kind)
}

/// A link's line.
pub fn link_line(design: &Design, link: &Link) -> String {
    let words = match &link.words {
        Some(words) => format!(" {}", string(words)),
        None => String::new(),
    };
    format!("link {}{words}", design.link_name(link))
}

/// A load's line.
pub fn load_line(design: &Design, load: &Load) -> String {
    let values = match load.values {
        Some((low, high)) => format!(" values {low}..{high}"),
        None => String::new(),
    };
    let column = design.column_name(load.column);
    format!("load {} by {column}{values}", name(&load.name))
}

/// A question's line.
pub fn question_line(design: &Design, question: &Question) -> String {
    let column = design.column_name(question.column);
    let mut line = format!("question {} {column} = ?", string(&question.text));
    let positions = design.positions(question);
    for (index, join) in question.joins.iter().enumerate() {
        line += if index == 0 { " with " } else { ", " };
        let target = positions[index + 1];
        line += &name(&design.tables[target].name);
        if crate::questions::ways(design, &positions[..=index], target).len() > 1 {
            line += &format!(" by {}", design.link_name(&design.links[join.link]));
        }
    }
    if let Some(total) = question.total {
        let place = crate::design::Place {
            table: positions[total.position],
            column: total.column,
        };
        line += &format!(" total {}", design.column_name(place));
    }
    line
}
