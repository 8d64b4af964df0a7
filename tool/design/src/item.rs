//! The items of a file as they are written: names that may name nothing yet, each with its place.

use crate::design::{Role, SourceKind};
use crate::span::{joined, Span};

/// A name or string with its place.
#[derive(Clone, Debug, Default)]
pub(crate) struct Name {
    pub(crate) text: String,
    pub(crate) span: Span,
}

/// `TABLE.COLUMN`.
#[derive(Clone, Debug)]
pub(crate) struct Dotted {
    pub(crate) table: Name,
    pub(crate) column: Name,
}

impl Dotted {
    pub(crate) fn span(&self) -> Span {
        joined(&self.table.span, &self.column.span)
    }

    pub(crate) fn text(&self) -> String {
        format!("{}.{}", self.table.text, self.column.text)
    }
}

/// `SOURCE -> TARGET`.
#[derive(Clone, Debug)]
pub(crate) struct Arrow {
    pub(crate) source: Dotted,
    pub(crate) target: Dotted,
}

impl Arrow {
    pub(crate) fn span(&self) -> Span {
        joined(&self.source.span(), &self.target.span())
    }

    pub(crate) fn text(&self) -> String {
        format!("{} -> {}", self.source.text(), self.target.text())
    }
}

/// A column's type.
#[derive(Clone, Debug)]
pub(crate) enum TypeItem {
    Named(Name),
    Tuple { parts: Vec<Name>, span: Span },
}

#[derive(Clone, Debug)]
pub(crate) struct SourceItem {
    pub(crate) kind: SourceKind,
    pub(crate) place: String,
    pub(crate) span: Span,
}

#[derive(Clone, Debug)]
pub(crate) struct TableItem {
    pub(crate) name: Name,
    pub(crate) from: Option<String>,
    pub(crate) label: Option<Name>,
}

#[derive(Clone, Debug)]
pub(crate) struct ColumnItem {
    pub(crate) name: Name,
    pub(crate) role: Role,
    pub(crate) role_span: Span,
    pub(crate) kind: TypeItem,
    pub(crate) issue: Option<Name>,
}

#[derive(Clone, Debug)]
pub(crate) struct LinkItem {
    pub(crate) arrow: Arrow,
    pub(crate) words: Option<String>,
}

/// `LOW..HIGH`, as it is written.
#[derive(Clone, Debug)]
pub(crate) struct ValuesItem {
    pub(crate) low: Name,
    pub(crate) high: Name,
}

#[derive(Clone, Debug)]
pub(crate) struct LoadItem {
    pub(crate) name: Name,
    pub(crate) column: Dotted,
    pub(crate) values: Option<ValuesItem>,
}

#[derive(Clone, Debug)]
pub(crate) struct WithItem {
    pub(crate) table: Name,
    pub(crate) by: Option<Arrow>,
}

#[derive(Clone, Debug)]
pub(crate) struct QuestionItem {
    pub(crate) text: Name,
    pub(crate) column: Dotted,
    pub(crate) with: Vec<WithItem>,
    pub(crate) total: Option<Dotted>,
}

/// What a line holds.
#[derive(Clone, Debug)]
pub(crate) enum Item {
    Design(Name),
    Source(SourceItem),
    Table(TableItem),
    Column(ColumnItem),
    Show(Vec<Name>),
    Link(LinkItem),
    Load(LoadItem),
    Question(QuestionItem),
}
