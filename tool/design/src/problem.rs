//! What is wrong with a design, or worth a second look, and where.

use crate::pages;
use crate::span::{Position, Span};

/// How bad it is.
#[derive(Clone, Copy, Debug, PartialEq, Eq, PartialOrd, Ord)]
pub enum Severity {
    /// The design is refused.
    Error,
    /// The design is accepted.
    Warning,
}

macro_rules! codes {
    ($($code:ident)*) => {
        /// The kind of a mistake, for programs and for `explain`. Numbers are never given again; those between that are missing here are for
        /// what only a database can show.
        #[derive(Clone, Copy, Debug, PartialEq, Eq, PartialOrd, Ord, Hash)]
        pub enum Code {
            $(#[doc = concat!("Its page is `pages/", stringify!($code), ".md`.")] $code,)*
        }

        impl Code {
            /// Every code.
            pub const ALL: &'static [Code] = &[$(Code::$code),*];

            /// As it is written.
            pub fn name(self) -> &'static str {
                match self {
                    $(Code::$code => stringify!($code),)*
                }
            }

            /// The page that explains it.
            pub fn page(self) -> pages::Page {
                match self {
                    $(Code::$code => pages::Page(include_str!(concat!("pages/", stringify!($code), ".md"))),)*
                }
            }
        }
    };
}

codes! {
    E001 E002 E003 E004 E005 E006 E007 E008 E009
    E010 E011 E012 E013 E014 E015 E016 E017 E018 E019
    E020 E021 E022 E023 E024 E025 E026 E027 E028
    E030 E031 E032
    E040 E041 E042 E043 E044
    E050 E051 E052 E053
    E060 E061 E062 E063 E064 E065
    E070 E071 E072 E073 E074 E075 E076 E077 E078
    W01 W02 W03 W04 W05
}

impl Code {
    /// The code with a name, in whatever case.
    pub fn named(name: &str) -> Option<Code> {
        let mut codes = Code::ALL.iter().copied();
        codes.find(|code| code.name().eq_ignore_ascii_case(name))
    }

    /// An E is an error, a W a warning.
    pub fn severity(self) -> Severity {
        match self.name().starts_with('E') {
            true => Severity::Error,
            false => Severity::Warning,
        }
    }
}

/// A piece of the text with a remark.
#[derive(Clone, Debug, PartialEq, Eq)]
pub struct Label {
    /// Where.
    pub span: Span,
    /// The remark; may be empty.
    pub text: String,
}

/// One mistake.
#[derive(Clone, Debug, PartialEq, Eq)]
pub struct Problem {
    /// Its kind.
    pub code: Code,
    /// What is wrong, in one sentence.
    pub message: String,
    /// Where.
    pub at: Label,
    /// What else in the text has to do with it. Without a remark it is part of the mistake.
    pub also: Vec<Label>,
    /// What to do, and what else is to be known.
    pub notes: Vec<String>,
}

impl Problem {
    /// A mistake at a place.
    pub fn new(code: Code, span: Span, message: impl Into<String>) -> Problem {
        Problem {
            code,
            message: message.into(),
            at: Label {
                span,
                text: String::new(),
            },
            also: Vec::new(),
            notes: Vec::new(),
        }
    }

    /// With a remark at its place.
    pub fn label(mut self, text: impl Into<String>) -> Problem {
        self.at.text = text.into();
        self
    }

    /// With a remark at its place that names what was probably meant, or else with the help that is given.
    pub(crate) fn meant<'a>(
        self,
        word: &str,
        candidates: impl IntoIterator<Item = &'a str>,
        otherwise: impl FnOnce() -> String,
    ) -> Problem {
        match crate::nearest::nearest(word, candidates) {
            Some(near) => self.label(format!("did you mean `{near}`?")),
            None => self.help(otherwise()),
        }
    }

    /// With another place and a remark.
    pub fn also(mut self, span: Span, text: impl Into<String>) -> Problem {
        self.also.push(Label {
            span,
            text: text.into(),
        });
        self
    }

    /// With what to do.
    pub fn help(self, text: impl AsRef<str>) -> Problem {
        self.note(format!("help: {}", text.as_ref()))
    }

    /// With something else to be known.
    pub fn note(mut self, text: impl Into<String>) -> Problem {
        self.notes.push(text.into());
        self
    }

    /// With its place so many bytes on.
    pub(crate) fn moved(mut self, bytes: usize) -> Problem {
        self.at.span = self.at.span.start + bytes..self.at.span.end + bytes;
        self
    }

    /// Where it stands in the text.
    pub fn position(&self, text: &str) -> Position {
        Position::of(text, self.at.span.start)
    }
}
