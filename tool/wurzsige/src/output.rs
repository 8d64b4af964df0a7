//! Text for people: mistakes with their lines and carets, in colour where a terminal is.

use std::io::{self, IsTerminal, Write};

use clap::ValueEnum;
use codespan_reporting::diagnostic::{Diagnostic, Label};
use codespan_reporting::files::SimpleFile;
use codespan_reporting::term::termcolor::{Buffer, Color, ColorSpec, WriteColor};
use codespan_reporting::term::{emit, Config};
use design::{Problem, Severity};

use crate::file::File;

/// Where colour is used: on a terminal unless NO_COLOR is set, everywhere, or nowhere.
#[derive(Clone, Copy, Debug, PartialEq, Eq, ValueEnum)]
#[allow(missing_docs)] // they would be part of the command line's help
pub enum When {
    Auto,
    Always,
    Never,
}

impl When {
    /// Whether what goes to a stream is coloured.
    fn applies(self, stream: &impl IsTerminal) -> bool {
        match self {
            When::Always => true,
            When::Never => false,
            When::Auto => {
                stream.is_terminal()
                    && std::env::var_os("NO_COLOR").is_none_or(|value| value.is_empty())
            }
        }
    }
}

/// Text that is gathered, and written at once.
pub struct Page(Buffer);

impl Page {
    /// A page for standard output.
    pub fn for_output(when: When) -> Page {
        Page::new(when.applies(&io::stdout()))
    }

    /// A page for standard error.
    pub fn for_errors(when: When) -> Page {
        Page::new(when.applies(&io::stderr()))
    }

    fn new(coloured: bool) -> Page {
        match coloured {
            true => Page(Buffer::ansi()),
            false => Page(Buffer::no_color()),
        }
    }

    /// Adds text.
    pub fn text(&mut self, text: &str) {
        self.bytes(text.as_bytes());
    }

    /// Adds bytes of text.
    pub fn bytes(&mut self, bytes: &[u8]) {
        // a buffer in memory takes whatever is written to it
        self.0.write_all(bytes).expect("a buffer");
    }

    /// Adds text in a colour.
    pub fn coloured(&mut self, color: Color, text: &str) {
        let mut spec = ColorSpec::new();
        spec.set_fg(Some(color)).set_bold(true);
        self.0.set_color(&spec).expect("a buffer");
        self.text(text);
        self.0.reset().expect("a buffer");
    }

    /// Adds a mistake of a file with its lines and carets.
    pub fn problem(&mut self, file: &File, problem: &Problem) {
        self.problem_in(&file.name, &file.text, problem);
    }

    /// Adds a mistake of a text with its lines and carets.
    pub fn problem_in(&mut self, name: &str, text: &str, problem: &Problem) {
        let source = SimpleFile::new(name, text);
        emit(
            &mut self.0,
            &Config::default(),
            &source,
            &diagnostic(problem),
        )
        .expect("a buffer, and places in the text");
    }

    /// What was gathered.
    pub fn into_bytes(self) -> Vec<u8> {
        self.0.into_inner()
    }
}

fn diagnostic(problem: &Problem) -> Diagnostic<()> {
    let diagnostic = match problem.code.severity() {
        Severity::Error => Diagnostic::error(),
        Severity::Warning => Diagnostic::warning(),
    };
    let at = Label::primary((), problem.at.span.clone()).with_message(&problem.at.text);
    let also = problem
        .also
        .iter()
        .map(|label| match label.text.is_empty() {
            true => Label::primary((), label.span.clone()),
            false => Label::secondary((), label.span.clone()).with_message(&label.text),
        });
    diagnostic
        .with_code(problem.code.name())
        .with_message(&problem.message)
        .with_labels(std::iter::once(at).chain(also).collect())
        .with_notes(problem.notes.clone())
}
