//! Items to a design: the tables as they come, then what names them. A name that can't be read is remembered, so that what names it is no
//! mistake as well.

use std::collections::HashSet;

use crate::design::{Column, Design, Place, Role, Single, Source, Table, Type};
use crate::item::{
    ColumnItem, Dotted, LinkItem, LoadItem, Name, QuestionItem, SourceItem, TableItem, TypeItem,
};
use crate::print;
use crate::problem::{Code, Problem};
use crate::read::{is_indented, Reading, Spans};
use crate::span::Span;
use crate::{labels, limits, links, loads, questions, types};

/// What an indented line belongs to.
#[derive(Clone, Copy)]
enum Open {
    /// Nothing: no table came before.
    None,
    /// A table.
    Table(usize),
    /// A table whose name can't be read, or none, which was told already.
    Lost,
}

/// Where items stand that can't be read, or name nothing. They count all the same.
#[derive(Default)]
pub(crate) struct Lost {
    pub(crate) tables: Vec<Span>,
    pub(crate) links: Vec<Span>,
    pub(crate) loads: Vec<Span>,
}

pub(crate) struct Builder<'a> {
    pub(crate) text: &'a str,
    pub(crate) design: Design,
    pub(crate) spans: Spans,
    pub(crate) problems: Vec<Problem>,
    pub(crate) links: Vec<LinkItem>,
    pub(crate) loads: Vec<LoadItem>,
    pub(crate) questions: Vec<QuestionItem>,
    /// Columns whose type can't be read.
    pub(crate) untyped: HashSet<Place>,
    pub(crate) lost: Lost,
    /// Whether some link's line can't be read, or names nothing.
    pub(crate) lost_links: bool,
    /// Whether the title's line can't be read.
    lost_title: bool,
    /// Whether some table's line can't be read at all.
    lost_tables: bool,
    /// Tables with a line that can't be read at all.
    lost_columns: HashSet<usize>,
    /// Tables with a tuple or a `show` that can't be read.
    lost_names: HashSet<usize>,
    /// The tables' labels with their places.
    labels: Vec<(usize, Name)>,
    /// The issues' columns with the columns that they are for.
    issues: Vec<(Place, Name)>,
    open: Open,
}

impl<'a> Builder<'a> {
    pub(crate) fn new(text: &'a str) -> Builder<'a> {
        Builder {
            text,
            design: Design::default(),
            spans: Spans::default(),
            problems: Vec::new(),
            links: Vec::new(),
            loads: Vec::new(),
            questions: Vec::new(),
            untyped: HashSet::new(),
            lost: Lost::default(),
            lost_links: false,
            lost_title: false,
            lost_tables: false,
            lost_columns: HashSet::new(),
            lost_names: HashSet::new(),
            labels: Vec::new(),
            issues: Vec::new(),
            open: Open::None,
        }
    }

    /// Over a design that was read of another text, whose places are lost.
    pub(crate) fn over(text: &'a str, design: &Design) -> Builder<'a> {
        let mut builder = Builder::new(text);
        let columns = design.tables.iter();
        builder.spans.columns = columns
            .map(|table| vec![0..0; table.columns.len()])
            .collect();
        builder.design = design.clone();
        builder
    }

    pub(crate) fn problem(&mut self, problem: Problem) {
        self.problems.push(problem);
    }

    /// Remembers what a line that can't be read was about: the word that it begins with, or was meant to, and, if it has one, the name that it
    /// gives.
    pub(crate) fn faulty_line(&mut self, line: &str, first: Name, name: Option<Name>) {
        if is_indented(line) {
            return self.faulty_column(line, name);
        }
        match (first.text.as_str(), name) {
            ("table", Some(name)) => self.add_table(name, None, None),
            ("table", None) => {
                self.lost.tables.push(first.span);
                self.lose_tables();
            }
            ("link", _) => self.lose_link(first.span),
            ("load", _) => self.lost.loads.push(first.span),
            ("question" | "source", _) => {}
            ("design", _) => self.lost_title = true,
            _ => self.lose_tables(),
        }
    }

    /// A link whose line can't be read, or that names nothing.
    pub(crate) fn lose_link(&mut self, span: Span) {
        self.lost.links.push(span);
        self.lost_links = true;
    }

    /// A line that may have been a table's.
    fn lose_tables(&mut self) {
        self.lost_tables = true;
        self.lost_links = true;
        self.open = Open::Lost;
    }

    fn faulty_column(&mut self, line: &str, name: Option<Name>) {
        let Open::Table(table) = self.open else {
            return;
        };
        let is_show = line.split_whitespace().next() == Some("show");
        if is_show || line.contains(['(', ')', ',']) {
            self.lost_names.insert(table);
        }
        if is_show {
            return;
        }
        let Some(name) = name else {
            self.lost_columns.insert(table);
            return;
        };
        let column = Column {
            name: name.text,
            role: Role::Plain,
            kind: Single::Text.into(),
            issue: None,
        };
        let place = self.add_column(table, column, name.span);
        self.untyped.insert(place);
    }

    pub(crate) fn title(&mut self, title: Name, word: &Span) {
        if let Some(first) = &self.spans.title {
            let problem = Problem::new(Code::E061, word.clone(), "a file is one design");
            let problem = problem.also(first.clone(), "it has its title here");
            return self.problem(problem);
        }
        self.spans.title = Some(word.start..title.span.end);
        self.design.title = title.text;
    }

    pub(crate) fn source(&mut self, source: SourceItem) {
        if let Some(first) = &self.spans.source {
            let message = "a design has one source";
            let problem = Problem::new(Code::E061, source.span, message);
            let problem = problem.also(first.clone(), "it is named here");
            return self.problem(
                problem.help("`--source` on the command line names another one for once"),
            );
        }
        self.spans.source = Some(source.span);
        self.design.source = Some(Source {
            kind: source.kind,
            place: source.place,
        });
    }

    pub(crate) fn table(&mut self, item: TableItem) {
        let number = self.design.tables.len();
        let label = item.label.as_ref().map(|label| label.text.clone());
        self.labels.extend(item.label.map(|label| (number, label)));
        self.add_table(item.name, item.from, label);
    }

    fn add_table(&mut self, name: Name, from: Option<String>, label: Option<String>) {
        self.open = Open::Table(self.design.tables.len());
        let same = |table: &Table| table.name == name.text;
        if let Some(first) = self.design.tables.iter().position(same) {
            let message = format!("there are two tables `{}`", name.text);
            let problem = Problem::new(Code::E010, name.span.clone(), message);
            let problem = problem.also(self.spans.tables[first].clone(), "the first one");
            self.problem(problem.help(
                "a table that stands in a design twice has two names: `table NAME from SQLNAME`",
            ));
        }
        self.design.tables.push(Table {
            name: name.text,
            from,
            label,
            columns: Vec::new(),
            show: Vec::new(),
        });
        self.spans.tables.push(name.span);
        self.spans.columns.push(Vec::new());
        self.spans.parts.push(Vec::new());
        self.spans.shown.push(Vec::new());
    }

    /// The table that an indented line belongs to; without one it is a mistake.
    fn open_table(&mut self, span: &Span) -> Option<usize> {
        match self.open {
            Open::Table(table) => return Some(table),
            Open::Lost => {}
            Open::None => {
                let message = "this line is indented, and there is no table before it";
                self.problem(Problem::new(Code::E009, span.clone(), message));
                self.open = Open::Lost;
            }
        }
        None
    }

    /// Whether there is a table that an indented line would belong to.
    pub(crate) fn is_in_table(&self) -> bool {
        matches!(self.open, Open::Table(_))
    }

    pub(crate) fn column(&mut self, item: ColumnItem) {
        let Some(table) = self.open_table(&item.name.span) else {
            return;
        };
        self.once(table, &item.name);
        let parts = match &item.kind {
            TypeItem::Named(_) => Vec::new(),
            TypeItem::Tuple { parts, .. } => parts.iter().map(|part| part.span.clone()).collect(),
        };
        let (kind, is_tuple) = match item.kind {
            TypeItem::Named(name) => (types::named(&name), false),
            TypeItem::Tuple { parts, span } => (types::tuple(&parts, span), true),
        };
        let (kind, typed) = match kind {
            Ok(kind) => (kind, true),
            Err(problem) => {
                self.problem(problem);
                if is_tuple {
                    self.lost_names.insert(table);
                }
                (Single::Text.into(), false)
            }
        };
        if typed && item.role == Role::Measure && kind != Single::Integer.into() {
            self.problem(types::no_measure(&item.role_span, &kind));
        }
        self.one_key(table, item.role, &item.role_span);
        let column = Column {
            name: item.name.text,
            role: item.role,
            kind,
            issue: item.issue.as_ref().map(|issue| issue.text.clone()),
        };
        let place = self.add_column(table, column, item.name.span);
        self.spans.parts[table][place.column] = parts;
        if !typed {
            self.untyped.insert(place);
        }
        self.issues.extend(item.issue.map(|issue| (place, issue)));
    }

    fn add_column(&mut self, table: usize, column: Column, span: Span) -> Place {
        let columns = &mut self.design.tables[table].columns;
        columns.push(column);
        self.spans.columns[table].push(span);
        self.spans.parts[table].push(Vec::new());
        let column = columns.len() - 1;
        Place { table, column }
    }

    /// A name that a table has already is a mistake.
    fn once(&mut self, table: usize, name: &Name) {
        let Table { columns, show, .. } = &self.design.tables[table];
        let column = columns.iter().position(|column| column.name == name.text);
        let shown = show.iter().position(|shown| *shown == name.text);
        let first = match (column, shown) {
            (Some(column), _) => &self.spans.columns[table][column],
            (None, Some(shown)) => &self.spans.shown[table][shown],
            (None, None) => return,
        };
        let table_name = &self.design.tables[table].name;
        let message = format!("table `{table_name}` has `{}` already", name.text);
        let problem = Problem::new(Code::E013, name.span.clone(), message);
        let problem = problem.also(first.clone(), "here");
        self.problem(
            problem.help("a column can be shown in labels without standing behind `show`"),
        );
    }

    fn one_key(&mut self, table: usize, role: Role, span: &Span) {
        let mut columns = self.design.tables[table].columns.iter();
        let key = columns.position(|column| column.role == Role::Key);
        let (Role::Key, Some(first)) = (role, key) else {
            return;
        };
        let name = &self.design.tables[table].name;
        let message = format!("table `{name}` has two keys");
        let problem = Problem::new(Code::E063, span.clone(), message);
        let problem = problem.also(self.spans.columns[table][first].clone(), "the first one");
        self.problem(problem.help(
            "write `unique` for one of them; a key of several columns is a tuple: `NAME key (A, B)`",
        ));
    }

    pub(crate) fn show(&mut self, names: Vec<Name>, word: &Span) {
        let Some(table) = self.open_table(word) else {
            return;
        };
        for name in names {
            self.once(table, &name);
            self.design.tables[table].show.push(name.text);
            self.spans.shown[table].push(name.span);
        }
    }

    /// The place that a column's name means; otherwise a mistake.
    pub(crate) fn resolve(&mut self, name: &Dotted) -> Option<Place> {
        let table = self.resolve_table(&name.table)?;
        let wanted = &name.column.text;
        let Table { columns, show, .. } = &self.design.tables[table];
        if let Some(column) = columns.iter().position(|column| column.name == *wanted) {
            return Some(Place { table, column });
        }
        if self.lost_columns.contains(&table) {
            return None;
        }
        let table_name = &name.table.text;
        let message = format!("table `{table_name}` has no column `{wanted}`");
        let problem = Problem::new(Code::E012, name.column.span.clone(), message);
        let problem = if show.contains(wanted) {
            problem.help(format!(
                "`{wanted}` is only shown: give it a line with its type instead"
            ))
        } else {
            let names = columns.iter().map(|column| column.name.as_str());
            problem.meant(wanted, names.clone(), || list("column", names))
        };
        self.problem(problem);
        None
    }

    /// The table that a name means; otherwise a mistake.
    pub(crate) fn resolve_table(&mut self, name: &Name) -> Option<usize> {
        let mut names = self.design.tables.iter().map(|table| table.name.as_str());
        if let Some(table) = names.clone().position(|table| table == name.text) {
            return Some(table);
        }
        if !self.lost_tables {
            let message = format!("there is no table `{}`", name.text);
            let problem = Problem::new(Code::E011, name.span.clone(), message);
            let all = names.clone();
            let sql = self
                .design
                .tables
                .iter()
                .find(|table| table.from.as_deref() == Some(&name.text));
            let problem = match sql {
                Some(table) => problem.label(format!("it is called `{}` here", table.name)),
                None => problem.meant(&name.text, names.by_ref(), || list("table", all)),
            };
            self.problem(problem);
        }
        None
    }

    pub(crate) fn finish(mut self) -> Reading {
        labels::check(&mut self);
        self.check_issues();
        self.check_tables();
        links::resolve(&mut self);
        loads::resolve(&mut self);
        questions::resolve(&mut self);
        limits::check(&mut self);
        let title = self.spans.title.is_some();
        let title = title.then(|| self.design.title.clone());
        if title.is_none() && !self.lost_title {
            let problem = Problem::new(Code::E060, 0..0, "the design has no title");
            self.problem(problem.help("begin with a line: design \"TITLE\""));
        }
        Reading {
            design: Some(self.design),
            title,
            spans: self.spans,
            problems: self.problems,
        }
    }

    /// Whether a table may have more names of columns than those that are known.
    pub(crate) fn may_have_more(&self, table: usize) -> bool {
        self.lost_columns.contains(&table) || self.lost_names.contains(&table)
    }

    /// The labels with their tables, once.
    pub(crate) fn take_labels(&mut self) -> Vec<(usize, Name)> {
        std::mem::take(&mut self.labels)
    }

    fn check_issues(&mut self) {
        for (place, issue) in std::mem::take(&mut self.issues) {
            let column = self.design.column(place);
            let message = if issue.text == column.name {
                "a column isn't its own issue".to_string()
            } else if column.role == Role::Measure {
                "a measure has no issue: totals add its numbers alone".into()
            } else if matches!(column.kind, Type::Tuple(_)) && !self.untyped.contains(&place) {
                let issue = print::name(&issue.text);
                format!("a tuple has no issue: make `{issue}` one of its columns")
            } else if let Some(kind) = self.no_number(place.table, &issue.text) {
                format!(
                    "`{}` is {kind}, and an issue is a whole number from 0 to 255",
                    issue.text
                )
            } else {
                continue;
            };
            self.problem(Problem::new(Code::E025, issue.span, message));
        }
    }

    /// The type of a table's column that is declared, and no number.
    fn no_number(&self, table: usize, name: &str) -> Option<&Type> {
        let columns = &self.design.tables[table].columns;
        let column = columns.iter().position(|column| column.name == name)?;
        let kind = &columns[column].kind;
        (!kind.is_number() && !self.untyped.contains(&Place { table, column })).then_some(kind)
    }

    fn check_tables(&mut self) {
        for (number, table) in self.design.tables.iter().enumerate() {
            if self.lost_columns.contains(&number) {
                continue;
            }
            let span = self.spans.tables[number].clone();
            let untyped = |column| {
                self.untyped.contains(&Place {
                    table: number,
                    column,
                })
            };
            if table.columns.is_empty() {
                let message = format!("table `{}` has no columns", table.name);
                let problem = Problem::new(Code::E064, span, message);
                self.problems.push(
                    problem.help("each column stands on an indented line below it, with its type"),
                );
            } else if self.spans.source.is_some()
                && !table.columns.iter().any(|column| column.role == Role::Key)
                && !(0..table.columns.len()).any(untyped)
            {
                let message = format!("table `{}` has no key", table.name);
                let problem = Problem::new(Code::E062, span, message);
                self.problems.push(problem.help(
                    "rows of a database are told apart by their keys: `NAME key TYPE`, or `NAME key (A, B)`",
                ));
            }
        }
    }
}

/// The names that there are, for a help; cut where they get many.
fn list<'n>(what: &str, names: impl Iterator<Item = &'n str>) -> String {
    let names: Vec<String> = names.map(|name| format!("`{}`", name)).collect();
    match &names[..] {
        [] => format!("there is no {what} at all"),
        [only] => format!("the only {what} is {only}"),
        [..] if names.len() <= 12 => format!("the {what}s are {}", names.join(", ")),
        [..] => format!("the {what}s are {}, ..", names[..12].join(", ")),
    }
}
