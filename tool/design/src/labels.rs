//! Labels of rows: text with `{COLUMN}` where a value stands, `{{` and `}}` for braces.

use crate::build::Builder;
use crate::design::{Table, Type};
use crate::item::Name;
use crate::problem::{Code, Problem};
use crate::span::Span;

/// A label's text between two values, or a value.
#[derive(Clone, Debug, PartialEq, Eq)]
pub enum Piece {
    /// Text as it is.
    Text(String),
    /// The value of a column.
    Value(String),
}

/// The pieces of a label without mistakes, for which it is not empty.
pub fn pieces(label: &str) -> Vec<Piece> {
    let mut pieces = Vec::new();
    let mut plain = String::new();
    for (piece, _) in cut(label).into_iter().flatten() {
        match piece {
            Piece::Text(text) => plain += &text,
            value => {
                if !plain.is_empty() {
                    pieces.push(Piece::Text(std::mem::take(&mut plain)));
                }
                pieces.push(value);
            }
        }
    }
    if !plain.is_empty() {
        pieces.push(Piece::Text(plain));
    }
    pieces
}

/// A piece with its place in the label, or a place that is wrong.
type Cut = Result<(Piece, Span), Span>;

/// Cuts a label at its braces.
fn cut(label: &str) -> Vec<Cut> {
    let mut pieces = Vec::new();
    let mut at = 0;
    while at < label.len() {
        let (piece, length) = first_piece(&label[at..]);
        let span = at..at + length;
        pieces.push(match piece {
            Some(piece) => Ok((piece, span)),
            None => Err(span),
        });
        at += length;
    }
    pieces
}

/// The piece at the head of a text that isn't empty, with its length; none where a brace has no partner.
fn first_piece(text: &str) -> (Option<Piece>, usize) {
    for brace in ["{", "}"] {
        if text.starts_with(&brace.repeat(2)) {
            return (Some(Piece::Text(brace.into())), 2);
        }
    }
    if text.starts_with('}') {
        return (None, 1);
    }
    if let Some(rest) = text.strip_prefix('{') {
        return match rest.find(['{', '}']) {
            Some(end) if end > 0 && rest[end..].starts_with('}') => {
                (Some(Piece::Value(rest[..end].into())), end + 2)
            }
            Some(end) if rest[end..].starts_with('}') => (None, end + 2),
            _ => (None, 1),
        };
    }
    let length = text.find(['{', '}']).unwrap_or(text.len());
    (Some(Piece::Text(text[..length].into())), length)
}

/// Every value that a label names has to be the table's.
pub(crate) fn check(builder: &mut Builder) {
    for (table, label) in builder.take_labels() {
        let written = &builder.text[label.span.clone()];
        let inner = &written[1..written.len() - 1];
        let start = label.span.start + 1;
        for piece in cut(inner) {
            let problem = match piece {
                Ok((Piece::Value(_), _)) if builder.may_have_more(table) => None,
                Ok((Piece::Value(name), span)) => {
                    let span = start + span.start + 1..start + span.end - 1;
                    unknown(&builder.design.tables[table], &Name { text: name, span })
                }
                Ok(_) => None,
                Err(span) => Some(lone_brace(start + span.start..start + span.end)),
            };
            builder.problems.extend(problem);
        }
    }
}

fn lone_brace(span: Span) -> Problem {
    let message = "a value in a label is written `{COLUMN}`";
    let problem = Problem::new(Code::E018, span, message);
    problem.help("write `{{` and `}}` for braces")
}

/// The mistake that a table can't show a value.
fn unknown(table: &Table, name: &Name) -> Option<Problem> {
    let plain = table.columns.iter().map(|column| column.name.as_str());
    let parts = table
        .columns
        .iter()
        .filter_map(|column| match &column.kind {
            Type::Tuple(parts) => Some(parts),
            _ => None,
        });
    let parts = parts.flatten().map(String::as_str);
    let shown = table.show.iter().map(String::as_str);
    let mut names = plain.chain(shown).chain(parts);
    if names.clone().any(|known| known == name.text) {
        return None;
    }
    let message = format!("table `{}` has no `{}` to show", table.name, name.text);
    let problem = Problem::new(Code::E018, name.span.clone(), message);
    Some(problem.meant(&name.text, names.by_ref(), || {
        format!("add `show {}` to the table", crate::print::name(&name.text))
    }))
}

#[cfg(test)]
mod tests {
    use super::{pieces, Piece};

    #[test]
    fn labels_are_cut_at_their_braces() {
        let text = |text: &str| Piece::Text(text.into());
        let value = |name: &str| Piece::Value(name.into());
        for (label, expected) in [
            ("", vec![]),
            ("ward {name}", vec![text("ward "), value("name")]),
            ("{a}{b}", vec![value("a"), value("b")]),
            ("{{{a}}} é", vec![text("{"), value("a"), text("} é")]),
        ] {
            assert_eq!(pieces(label), expected, "{label}");
        }
    }
}
