//! Types of columns, and of the classes that links make of them.

use crate::build::Builder;
use crate::design::{Place, Single, Type};
use crate::item::Name;
use crate::nearest::nearest;
use crate::problem::{Code, Problem};
use crate::span::Span;

/// Types of SQL that have another name here.
const SYNONYMS: [(&str, &str); 21] = [
    ("int", "integer"),
    ("int2", "integer"),
    ("int4", "integer"),
    ("smallint", "integer"),
    ("serial", "integer"),
    ("int8", "bigint"),
    ("bigserial", "bigint"),
    ("long", "bigint"),
    ("string", "text"),
    ("char", "text"),
    ("varchar", "text"),
    ("character", "text"),
    ("name", "text"),
    ("citext", "text"),
    ("guid", "uuid"),
    ("datetime", "timestamp"),
    ("timestamptz", "timestamp"),
    ("time", "timestamp"),
    ("bool", "boolean"),
    ("bit", "boolean"),
    ("year", "integer"),
];

/// Types of SQL that no column of a design can have.
const FRACTIONS: [&str; 6] = ["real", "float", "double", "numeric", "decimal", "money"];

/// The type with a name.
pub(crate) fn named(name: &Name) -> Result<Type, Problem> {
    if let Some(single) = Single::named(&name.text) {
        return Ok(single.into());
    }
    let message = format!("`{}` is no type", name.text);
    let problem = Problem::new(Code::E020, name.span.clone(), message);
    let folded = name.text.to_lowercase();
    if let Some((_, meant)) = SYNONYMS.iter().find(|(synonym, _)| *synonym == folded) {
        return Err(problem.label(format!("write `{meant}`")));
    }
    if FRACTIONS.contains(&folded.as_str()) {
        return Err(problem.help("cells are whole numbers: let a column of the database, or of a view, have it in tenths or hundredths"));
    }
    let names = Single::ALL.iter().map(|single| single.name());
    match nearest(&name.text, names) {
        Some(near) => Err(problem.label(format!("did you mean `{near}`?"))),
        None => Err(problem.help("the types are integer, bigint, text, uuid, date, timestamp, boolean, and tuples: (A, B)")),
    }
}

/// The type of several columns in one cell.
pub(crate) fn tuple(parts: &[Name], span: Span) -> Result<Type, Problem> {
    let [_, _, ..] = parts else {
        let problem = Problem::new(Code::E027, span, "a tuple has at least two columns");
        return Err(problem.help("write the type of a single column without parentheses"));
    };
    for (index, part) in parts.iter().enumerate() {
        if let Some(first) = parts[..index].iter().find(|other| other.text == part.text) {
            let message = format!("`{}` stands in the tuple twice", part.text);
            let problem = Problem::new(Code::E027, part.span.clone(), message);
            return Err(problem.also(first.span.clone(), "the first time"));
        }
    }
    let names = parts.iter().map(|part| part.text.clone());
    Ok(Type::Tuple(names.collect()))
}

/// The mistake that a measure isn't a number.
pub(crate) fn no_measure(span: &Span, kind: &Type) -> Problem {
    let message = format!("a measure is a whole number, and `{kind}` is none");
    let message = match kind {
        Type::Single(Single::Bigint) => "a measure is written `measure integer`".to_string(),
        _ => message,
    };
    let problem = Problem::new(Code::E026, span.clone(), message);
    problem.help("write `measure integer`: totals add whole numbers from 0 to 4,294,967,295")
}

/// What is known of a type: of a tuple's columns only those are known that the table declares.
#[derive(Clone, Debug, PartialEq, Eq)]
enum Shape {
    Unknown,
    Single(Single),
    Tuple(Vec<Shape>),
}

fn shape(builder: &Builder, place: Place) -> Shape {
    if builder.untyped.contains(&place) {
        return Shape::Unknown;
    }
    match &builder.design.column(place).kind {
        Type::Tuple(parts) => {
            let part = |part: &String| part_shape(builder, place.table, part);
            Shape::Tuple(parts.iter().map(part).collect())
        }
        Type::Single(single) => Shape::Single(*single),
    }
}

fn part_shape(builder: &Builder, table: usize, part: &str) -> Shape {
    let columns = &builder.design.tables[table].columns;
    let declared = columns.iter().position(|column| column.name == part);
    let typed = declared.filter(|&column| !builder.untyped.contains(&Place { table, column }));
    match typed.map(|column| &columns[column].kind) {
        Some(Type::Single(single)) => Shape::Single(*single),
        Some(Type::Tuple(_)) | None => Shape::Unknown,
    }
}

/// What is known of a type of which two things are known, unless they exclude each other.
fn both(left: &Shape, right: &Shape) -> Option<Shape> {
    match (left, right) {
        (Shape::Unknown, known) | (known, Shape::Unknown) => Some(known.clone()),
        (Shape::Tuple(left), Shape::Tuple(right)) if left.len() == right.len() => {
            let parts = left.iter().zip(right);
            let parts: Option<Vec<Shape>> = parts.map(|(left, right)| both(left, right)).collect();
            parts.map(Shape::Tuple)
        }
        (left, right) => (left == right).then(|| left.clone()),
    }
}

/// Columns that links connect, directly or through others, with what is known of their one type.
#[derive(Default)]
pub(crate) struct Classes(Vec<(Vec<Place>, Shape)>);

impl Classes {
    /// Puts the two columns of a link into one class, unless that would have two types.
    pub(crate) fn join(
        &mut self,
        builder: &Builder,
        source: Place,
        target: Place,
    ) -> Result<(), Conflict> {
        if both(&shape(builder, source), &shape(builder, target)).is_none() {
            return Err(Conflict::Columns);
        }
        let left = self.class_of(builder, source);
        let right = self.class_of(builder, target);
        if left == right {
            return Ok(());
        }
        let Some(shape) = both(&self.0[left].1, &self.0[right].1) else {
            return Err(Conflict::Classes);
        };
        let (columns, _) = std::mem::replace(&mut self.0[right], (Vec::new(), Shape::Unknown));
        self.0[left].0.extend(columns);
        self.0[left].1 = shape;
        Ok(())
    }

    fn class_of(&mut self, builder: &Builder, place: Place) -> usize {
        let has = |(columns, _): &(Vec<Place>, Shape)| columns.contains(&place);
        self.0.iter().position(has).unwrap_or_else(|| {
            self.0.push((vec![place], shape(builder, place)));
            self.0.len() - 1
        })
    }
}

/// Why two columns can't be in one class.
pub(crate) enum Conflict {
    /// Their own types differ.
    Columns,
    /// Columns that they are linked to have different types.
    Classes,
}
