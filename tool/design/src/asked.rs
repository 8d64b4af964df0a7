//! Questions that a design doesn't have: `T.C = VALUE [with U [by LINK], ..] [total U.D]`, read as the lines of a design are.

use crate::build::Builder;
use crate::cursor::Cursor;
use crate::design::{Design, Question};
use crate::item::Name;
use crate::parse;
use crate::problem::{Code, Problem, Severity};
use crate::questions::resolve_one;
use crate::token::{tokens, tokens_up_to, Kind, Token};
use crate::word::{word, Word};

/// A question with the value that it asks for.
#[derive(Clone, Debug, PartialEq, Eq)]
pub struct Asked {
    /// The question; its text is empty.
    pub question: Question,
    /// The value, as it is written.
    pub value: Word,
}

/// Reads a question over a design, or tells all of its mistakes, with places in the text.
pub fn asked(design: &Design, text: &str) -> Result<Asked, Vec<Problem>> {
    let (item, value) = parsed(text).map_err(|problem| vec![problem])?;
    let mut builder = Builder::over(text, design);
    let question = resolve_one(&mut builder, item);
    let mut problems = builder.problems;
    problems.retain(|problem| problem.code.severity() == Severity::Error);
    for problem in &mut problems {
        // their places are those of the design's own text
        problem.also.clear();
    }
    match question {
        Some((question, _)) if problems.is_empty() => Ok(Asked { question, value }),
        _ => Err(problems),
    }
}

/// The item that the text would be in a design, with `?` in place of the value, and the value.
fn parsed(text: &str) -> Result<(crate::item::QuestionItem, Word), Problem> {
    let (mut all, end) = tokens_up_to(text, "=")?;
    let mut value = None;
    if all.last().is_some_and(|last| last.is("=")) {
        let Some(word) = word(text, end)? else {
            let message = "expected a value, found the end of the line";
            return Err(Problem::new(Code::E007, text.len()..text.len(), message));
        };
        all.push(Token {
            kind: Kind::Sign,
            raw: "?",
            span: word.span.clone(),
        });
        all.extend(tokens(&text[word.span.end..], word.span.end)?);
        value = Some(word);
    }
    let nothing = Name {
        text: String::new(),
        span: 0..0,
    };
    let item = parse::asked(&mut Cursor::new(&all), nothing)?;
    let value = value.expect("without `=` it is no question");
    Ok((item, value))
}

#[cfg(test)]
mod tests {
    use super::asked;
    use crate::{read, Design};

    fn design() -> Design {
        let text = "design \"Sleep\"\ntable subject\n    id   key uuid\n    ward text\n    born date\ntable night\n    id      key integer\n    subject uuid\n    minutes measure integer\nlink subject.id -> night.subject\nload ward by subject.ward\n";
        read(text).design.expect("a design")
    }

    #[test]
    fn a_value_may_be_a_word_or_a_string() {
        let design = design();
        for (text, value, quoted) in [
            ("subject.ward = W-NORD", "W-NORD", false),
            (
                "subject.ward = \"St. \\\"A\\\"\" with night",
                "St. \"A\"",
                true,
            ),
            (
                "subject.ward=W|1 with night total night.minutes # why not",
                "W|1",
                false,
            ),
            ("`subject`.ward = = with night", "=", false),
        ] {
            let asked = asked(&design, text).expect(text);
            assert_eq!(
                (asked.value.text.as_str(), asked.value.quoted),
                (value, quoted)
            );
            assert_eq!(asked.question.column, design.loads[0].column);
            assert_eq!(
                asked.question.joins.len(),
                usize::from(text.contains("with"))
            );
            assert_eq!(asked.question.total.is_some(), text.contains("total"));
        }
    }

    #[test]
    fn mistakes_have_their_places_in_the_text() {
        let design = design();
        for (text, told, place) in [
            ("subject.wrd = 1", "table `subject` has no column `wrd`", 8),
            (
                "subject.ward",
                "expected `=`, found the end of the line",
                12,
            ),
            (
                "subject.ward =",
                "expected a value, found the end of the line",
                14,
            ),
            (
                "subject.ward = x with night total night.id",
                "night.id is no measure, and totals add measures",
                34,
            ),
            (
                "subject.ward = x wth night",
                "expected the end of the line, found `wth`",
                17,
            ),
            (
                "night.minutes = 3",
                "night.minutes is a measure, and a question can't use it",
                0,
            ),
            ("subject.ward = \"x", "this string has no closing \"", 15),
        ] {
            let problems = asked(&design, text).expect_err(text);
            assert_eq!(problems[0].message, told, "{text}");
            assert_eq!(problems[0].at.span.start, place, "{text}");
        }
    }
}
