//! Holds a design to a database's catalog: every name is there, every type fits, and columns of one class are compared in one way.

use design::{nearest, Code, Design, Place, Problem, Role, Span, Spans, Type};

use crate::catalog::{Column, Misfit, Relation, TableName};
use crate::database::{Database, Fit};
use crate::kind::Kind;
use crate::Failure;

/// For each table of a design what it is in the database.
#[derive(Clone, Debug)]
pub(crate) struct Binding {
    pub(crate) tables: Vec<BoundTable>,
    /// The unique columns of which no index of the database says so.
    pub(crate) uncertain: Vec<Place>,
}

#[derive(Clone, Debug)]
pub(crate) struct BoundTable {
    /// Its name in SQL.
    pub(crate) name: String,
    pub(crate) columns: Vec<BoundColumn>,
    pub(crate) shown: Vec<Column>,
    /// The number of the key among the columns.
    pub(crate) key: usize,
}

#[derive(Clone, Debug)]
pub(crate) struct BoundColumn {
    /// The database's column, or those of a tuple.
    pub(crate) parts: Vec<Part>,
    /// The database's column with the issues.
    pub(crate) issue: Option<Part>,
    pub(crate) is_tuple: bool,
}

/// A column of the database, as one of a kind.
#[derive(Clone, Debug)]
pub(crate) struct Part {
    pub(crate) column: Column,
    pub(crate) kind: Kind,
    pub(crate) fit: Fit,
}

/// A binding with what is wrong with it and what is worth a second look.
pub(crate) struct Bound {
    /// None if something is wrong.
    pub(crate) binding: Option<Binding>,
    pub(crate) problems: Vec<Problem>,
}

/// Holds a design to the catalog.
pub(crate) fn bind(
    database: &mut dyn Database,
    design: &Design,
    spans: &Spans,
) -> Result<Bound, Failure> {
    let mut binder = Binder {
        database,
        design,
        spans,
        problems: Vec::new(),
    };
    let mut tables = Vec::new();
    let mut uncertain = Vec::new();
    for table in 0..design.tables.len() {
        let Some(relation) = binder.relation(table)? else {
            continue;
        };
        tables.extend(binder.table(table, &relation));
        uncertain.extend(binder.uncertain(table, &relation));
    }
    let whole = tables.len() == design.tables.len();
    let binding = whole.then_some(Binding { tables, uncertain });
    if let Some(binding) = &binding {
        binder.classes(binding);
    }
    let wrong = |problem: &Problem| problem.code.severity() == design::Severity::Error;
    let refused = binder.problems.iter().any(wrong);
    Ok(Bound {
        binding: binding.filter(|_| !refused),
        problems: binder.problems,
    })
}

struct Binder<'a> {
    database: &'a mut dyn Database,
    design: &'a Design,
    spans: &'a Spans,
    problems: Vec<Problem>,
}

impl Binder<'_> {
    fn table_span(&self, table: usize) -> Span {
        self.spans.tables.get(table).cloned().unwrap_or(0..0)
    }

    fn column_span(&self, place: Place) -> Span {
        let columns = self.spans.columns.get(place.table);
        let span = columns.and_then(|columns| columns.get(place.column));
        span.cloned().unwrap_or(0..0)
    }

    /// Where a tuple's part stands.
    fn part_span(&self, place: Place, part: usize) -> Span {
        let columns = self.spans.parts.get(place.table);
        let parts = columns.and_then(|columns| columns.get(place.column));
        let span = parts.and_then(|parts| parts.get(part)).cloned();
        span.unwrap_or_else(|| self.column_span(place))
    }

    /// What a table is in the database; otherwise a mistake.
    fn relation(&mut self, table: usize) -> Result<Option<Relation>, Failure> {
        let span = self.table_span(table);
        let declared = &self.design.tables[table];
        let Some(name) = TableName::of(declared) else {
            let message = format!(
                "`{}` names no table",
                declared.from.as_deref().unwrap_or("")
            );
            let problem = Problem::new(Code::E070, span, message);
            self.problems
                .push(problem.help("a table of the database is written NAME or SCHEMA.NAME"));
            return Ok(None);
        };
        let Some(relation) = self.database.relation(&name)? else {
            let problem = self.no_table(span, &name)?;
            self.problems.push(problem);
            return Ok(None);
        };
        if let Some(misfit) = &relation.refused {
            self.problems
                .push(told(misfit, span, &format!("table `{}`", declared.name)));
        }
        Ok(Some(relation))
    }

    fn no_table(&mut self, span: Span, name: &TableName) -> Result<Problem, Failure> {
        let written = name.to_string();
        let message = format!("the database has no table or view `{written}`");
        let problem = Problem::new(Code::E070, span, message);
        let all = self.database.relations()?;
        let names: Vec<String> = all.iter().map(TableName::to_string).collect();
        let near = nearest(&written, names.iter().map(String::as_str));
        Ok(match near {
            Some(near) => problem.label(format!("did you mean `{near}`? write `from {near}`")),
            None => problem.help("`table NAME from SQLNAME` takes it from a table of another name"),
        })
    }

    fn table(&mut self, table: usize, relation: &Relation) -> Option<BoundTable> {
        let declared = &self.design.tables[table];
        let columns: Vec<Option<BoundColumn>> = (0..declared.columns.len())
            .map(|column| self.column(Place { table, column }, relation))
            .collect();
        let shown: Vec<Option<Column>> = (0..declared.show.len())
            .map(|index| self.shown(table, index, relation))
            .collect();
        let is_key = |column: &design::Column| column.role == Role::Key;
        let key = declared.columns.iter().position(is_key);
        if key.is_none() {
            let message = format!("table `{}` has no key", declared.name);
            let problem = Problem::new(Code::E062, self.table_span(table), message);
            self.problems.push(problem.help("rows of a database are told apart by their keys: `NAME key TYPE`, or `NAME key (A, B)`"));
        }
        Some(BoundTable {
            name: relation.name.quoted(),
            columns: columns.into_iter().collect::<Option<_>>()?,
            shown: shown.into_iter().collect::<Option<_>>()?,
            key: key?,
        })
    }

    fn column(&mut self, place: Place, relation: &Relation) -> Option<BoundColumn> {
        let design = self.design;
        let column = design.column(place);
        let span = self.column_span(place);
        let parts: Vec<Option<Part>> = match &column.kind {
            Type::Tuple(names) => {
                let parts = names.iter().enumerate();
                parts
                    .map(|(index, name)| {
                        let span = self.part_span(place, index);
                        self.tuple_part(place.table, relation, name, span)
                    })
                    .collect()
            }
            kind => {
                let kind = Kind::of(kind, column.role)?;
                vec![self.part(place.table, relation, &column.name, kind, span.clone())]
            }
        };
        let issue = match &column.issue {
            Some(issue) => Some(self.part(place.table, relation, issue, Kind::Issue, span)?),
            None => None,
        };
        Some(BoundColumn {
            parts: parts.into_iter().collect::<Option<_>>()?,
            issue,
            is_tuple: matches!(column.kind, Type::Tuple(_)),
        })
    }

    /// A database's column as one of a kind; otherwise a mistake.
    fn part(
        &mut self,
        table: usize,
        relation: &Relation,
        name: &str,
        kind: Kind,
        span: Span,
    ) -> Option<Part> {
        let column = self.find(table, relation, name, span.clone())?;
        match self.database.fit(&column, kind) {
            Ok(fit) => Some(Part { column, kind, fit }),
            Err(misfit) => {
                let what = format!("{}.{}", self.table_name(table), design::name(name));
                self.problems.push(told(&misfit, span, &what));
                None
            }
        }
    }

    /// A tuple's part: of the type that the table declares for it, or else of its own.
    fn tuple_part(
        &mut self,
        table: usize,
        relation: &Relation,
        name: &str,
        span: Span,
    ) -> Option<Part> {
        let declared = self.design.tables[table].columns.iter();
        let mut declared = declared.filter(|column| column.name == name);
        let kind = declared.find_map(|column| Kind::of(&column.kind, column.role));
        if let Some(kind) = kind {
            return self.part(table, relation, name, kind, span);
        }
        let column = self.find(table, relation, name, span.clone())?;
        match self.database.natural(&column) {
            Some(kind) => self.part(table, relation, name, Kind::Of(kind), span),
            None => {
                let misfit = Misfit {
                    code: Code::E072,
                    message: match column.written.as_str() {
                        "" => "has no type in the database".into(),
                        written => format!("has the type {written} in the database, which no column of a design has"),
                    },
                    help: "give it a line with its type above the tuple, or let a view convert it".into(),
                };
                let what = format!("{}.{}", self.table_name(table), design::name(name));
                self.problems.push(told(&misfit, span, &what));
                None
            }
        }
    }

    fn shown(&mut self, table: usize, index: usize, relation: &Relation) -> Option<Column> {
        let name = &self.design.tables[table].show[index];
        let shown = self.spans.shown.get(table);
        let span = shown.and_then(|names| names.get(index)).cloned();
        let span = span.unwrap_or_else(|| self.table_span(table));
        self.find(table, relation, name, span)
    }

    fn table_name(&self, table: usize) -> String {
        design::name(&self.design.tables[table].name)
    }

    /// The database's column with a name; otherwise a mistake.
    fn find(
        &mut self,
        table: usize,
        relation: &Relation,
        name: &str,
        span: Span,
    ) -> Option<Column> {
        if let Some(column) = self.database.spelling(&relation.columns, name) {
            return Some(column.clone());
        }
        let message = format!(
            "`{}` has no column `{name}` in the database",
            self.design.tables[table].name
        );
        let problem = Problem::new(Code::E071, span, message);
        let names = relation.columns.iter().map(|column| column.name.as_str());
        self.problems.push(match nearest(name, names.clone()) {
            Some(near) => problem.label(format!("did you mean `{near}`?")),
            None => problem.help(listed(names)),
        });
        None
    }

    /// The unique columns of a table that no index makes so, each with a warning.
    fn uncertain(&mut self, table: usize, relation: &Relation) -> Vec<Place> {
        let columns = self.design.tables[table].columns.iter().enumerate();
        let unique = columns.filter(|(_, column)| column.role.is_unique());
        let places = unique.map(|(column, _)| Place { table, column });
        let uncertain = places.filter(|place| !self.is_indexed(*place, relation));
        let uncertain: Vec<Place> = uncertain.collect();
        for place in &uncertain {
            let warning = self.no_index(*place, relation);
            self.problems.push(warning);
        }
        uncertain
    }

    /// The names of the database that tell a unique column's values apart.
    fn names<'r>(&self, place: Place, relation: &'r Relation) -> Vec<&'r str> {
        let column = self.design.column(place);
        let names: Vec<&String> = match &column.kind {
            Type::Tuple(parts) => parts.iter().collect(),
            _ => std::iter::once(&column.name).chain(&column.issue).collect(),
        };
        let found = names
            .iter()
            .filter_map(|name| self.database.spelling(&relation.columns, name));
        found.map(|column| column.name.as_str()).collect()
    }

    /// Whether an index of all rows is on these columns, or on some of them.
    fn is_indexed(&self, place: Place, relation: &Relation) -> bool {
        let names = self.names(place, relation);
        relation.unique.iter().any(|unique| {
            let among = |column: &String| names.contains(&column.as_str());
            unique.weakness.is_none()
                && !unique.columns.is_empty()
                && unique.columns.iter().all(among)
        })
    }

    fn no_index(&self, place: Place, relation: &Relation) -> Problem {
        let role = match self.design.column(place).role {
            Role::Key => "the key",
            _ => "unique",
        };
        let name = self.design.column_name(place);
        let message = format!("{name} is {role} here, and no index of the database makes it so");
        let problem = Problem::new(Code::W05, self.column_span(place), message);
        let names = self.names(place, relation);
        let weak = relation.unique.iter().filter_map(|unique| {
            let among = |column: &String| names.contains(&column.as_str());
            let near = unique.columns.iter().all(among);
            unique.weakness.as_ref().filter(|_| near)
        });
        let problem = weak.fold(problem, |problem, weakness| {
            problem.note(format!("its unique index {weakness}"))
        });
        problem.note("its values were counted, and none stands there twice now; a row that comes later may change that")
    }

    /// Linked columns have to be compared in one way.
    fn classes(&mut self, binding: &Binding) {
        let of = |place: Place| -> Vec<&'static str> {
            let parts = &binding.tables[place.table].columns[place.column].parts;
            parts.iter().map(|part| part.fit.equality).collect()
        };
        let written = |place: Place| -> String {
            let parts = &binding.tables[place.table].columns[place.column].parts;
            let types: Vec<&str> = parts
                .iter()
                .map(|part| part.column.written.as_str())
                .collect();
            types.join(", ")
        };
        for (number, link) in self.design.links.iter().enumerate() {
            if of(link.source) == of(link.target) {
                continue;
            }
            let message = format!(
                "{} is {} in the database, {} is {}: they are not compared as values of one type",
                self.design.column_name(link.source),
                written(link.source),
                self.design.column_name(link.target),
                written(link.target),
            );
            let (from, to) = self
                .spans
                .links
                .get(number)
                .cloned()
                .unwrap_or((0..0, 0..0));
            let problem = Problem::new(Code::E076, from, message).also(to, "");
            self.problems.push(
                problem.help("let a view convert one of them, and name the view behind `from`"),
            );
        }
    }
}

/// A mistake in a design's words.
fn told(misfit: &Misfit, span: Span, what: &str) -> Problem {
    let message = format!("{what} {}", misfit.message);
    Problem::new(misfit.code, span, message).help(&misfit.help)
}

/// The names that there are, for a help; cut where they get many.
fn listed<'n>(names: impl Iterator<Item = &'n str>) -> String {
    const MOST: usize = 12;
    let names: Vec<String> = names.map(|name| format!("`{name}`")).collect();
    match names.len() {
        0 => "it has no column at all".into(),
        few if few <= MOST => format!("its columns are {}", names.join(", ")),
        _ => format!("its columns are {}, ..", names[..MOST].join(", ")),
    }
}
