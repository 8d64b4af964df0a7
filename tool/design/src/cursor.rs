//! The tokens of a line, taken one after another.

use crate::item::{Arrow, Dotted, Name};
use crate::nearest::nearest;
use crate::problem::{Code, Problem};
use crate::span::Span;
use crate::token::{Kind, Token};

pub(crate) struct Cursor<'a> {
    rest: &'a [Token<'a>],
    /// The end of the last token that was taken.
    end: usize,
}

impl<'a> Cursor<'a> {
    /// At the first of a line's tokens.
    pub(crate) fn new(tokens: &'a [Token<'a>]) -> Cursor<'a> {
        let end = tokens.first().map_or(0, |first| first.span.start);
        Cursor { rest: tokens, end }
    }

    pub(crate) fn peek(&self) -> Option<&'a Token<'a>> {
        self.rest.first()
    }

    pub(crate) fn advance(&mut self) -> Option<&'a Token<'a>> {
        let (token, rest) = self.rest.split_first()?;
        self.rest = rest;
        self.end = token.span.end;
        Some(token)
    }

    /// Takes the next token if it is this word or sign.
    pub(crate) fn take(&mut self, text: &str) -> Option<Span> {
        let token = self.peek().filter(|token| token.is(text))?;
        self.advance();
        Some(token.span.clone())
    }

    pub(crate) fn expect(&mut self, text: &str) -> Result<Span, Problem> {
        match self.take(text) {
            Some(span) => Ok(span),
            None => Err(self.expected(&format!("`{text}`"), &[text])),
        }
    }

    /// Takes a name; `what` says of what.
    pub(crate) fn name(&mut self, what: &str) -> Result<Name, Problem> {
        let name = self.peek().and_then(|token| {
            let text = token.name()?.to_string();
            let span = token.span.clone();
            Some(Name { text, span })
        });
        match name {
            Some(name) => {
                self.advance();
                Ok(name)
            }
            None => Err(self.expected(what, &[])),
        }
    }

    /// Takes a string, if one stands next.
    pub(crate) fn text(&mut self) -> Option<Name> {
        let token = self.peek()?;
        let Kind::Text(text) = &token.kind else {
            return None;
        };
        self.advance();
        Some(Name {
            text: text.clone(),
            span: token.span.clone(),
        })
    }

    pub(crate) fn expect_text(&mut self, what: &str) -> Result<Name, Problem> {
        match self.text() {
            Some(text) => Ok(text),
            None => Err(self.expected(what, &[])),
        }
    }

    /// Takes a word of digits.
    pub(crate) fn number(&mut self, what: &str) -> Result<Name, Problem> {
        let digits = |token: &&Token| token.raw.bytes().all(|byte| byte.is_ascii_digit());
        match self.peek().filter(digits) {
            Some(token) => {
                self.advance();
                Ok(Name {
                    text: token.raw.into(),
                    span: token.span.clone(),
                })
            }
            None => Err(self.expected(what, &[])),
        }
    }

    /// Takes `TABLE.COLUMN`.
    pub(crate) fn dotted(&mut self) -> Result<Dotted, Problem> {
        let table = self.name("a column, written `TABLE.COLUMN`")?;
        if self.take(".").is_none() {
            let problem = self.expected("`.`", &[]);
            return Err(problem.help("a column is written with its table: `TABLE.COLUMN`"));
        }
        let column = self.name("a column's name")?;
        Ok(Dotted { table, column })
    }

    /// Takes `SOURCE -> TARGET`.
    pub(crate) fn arrow(&mut self) -> Result<Arrow, Problem> {
        let source = self.dotted()?;
        self.expect("->")?;
        let target = self.dotted()?;
        Ok(Arrow { source, target })
    }

    /// The end of the line; `words` could have stood here too.
    pub(crate) fn finish(&self, words: &[&str]) -> Result<(), Problem> {
        let Some(token) = self.peek() else {
            return Ok(());
        };
        let message = format!("expected the end of the line, found {}", written(token));
        let problem = Problem::new(Code::E008, token.span.clone(), message);
        Err(with_nearest(problem, token, words))
    }

    /// The mistake that something else stands here; `words` are those that could.
    pub(crate) fn expected(&self, what: &str, words: &[&str]) -> Problem {
        let Some(token) = self.peek() else {
            let message = format!("expected {what}, found the end of the line");
            return Problem::new(Code::E007, self.end..self.end, message);
        };
        let message = format!("expected {what}, found {}", written(token));
        let problem = Problem::new(Code::E007, token.span.clone(), message);
        with_nearest(problem, token, words)
    }
}

fn with_nearest(problem: Problem, token: &Token, words: &[&str]) -> Problem {
    match nearest(token.raw, words.iter().copied()) {
        Some(near) => problem.label(format!("did you mean `{near}`?")),
        None => problem,
    }
}

/// A token as a message names it.
fn written(token: &Token) -> String {
    match token.kind {
        Kind::Text(_) => format!("the string {}", token.raw),
        Kind::Name(_) => token.raw.into(),
        _ => format!("`{}`", token.raw),
    }
}
