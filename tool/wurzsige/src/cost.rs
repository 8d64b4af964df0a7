//! What loads cost before and after a change of a design, on a real database.

use codespan_reporting::term::termcolor::Color;
use design::{Design, Word};
use serde::Serialize;
use session::{Referred, Session, Trouble, MOST_ROWS};
use source::Source;

use crate::loads::Asked;
use crate::output::Page;

/// How many values of the database are tried for a load, where none is named.
const TRIED: usize = 3;

/// What a load costs.
#[derive(Clone, Copy, Debug, PartialEq, Eq)]
pub enum Cost {
    /// So many rows.
    Rows(usize),
    /// More rows than a desk can have.
    TooLarge,
    /// The design doesn't have the load, or not for this value.
    None,
}

/// What a load of both designs costs for a value, or one of either.
#[derive(Debug, Serialize)]
pub struct Costs {
    load: String,
    value: String,
    #[serde(serialize_with = "rows")]
    before: Cost,
    #[serde(serialize_with = "rows")]
    after: Cost,
}

/// The rows; `"too large"`; or null.
fn rows<S: serde::Serializer>(cost: &Cost, to: S) -> Result<S::Ok, S::Error> {
    match cost {
        Cost::Rows(rows) => to.serialize_u64(*rows as u64),
        Cost::TooLarge => to.serialize_str("too large"),
        Cost::None => to.serialize_none(),
    }
}

impl Costs {
    /// Whether the load fitted, and doesn't any more.
    pub fn is_worse(&self) -> bool {
        matches!((self.before, self.after), (Cost::Rows(_), Cost::TooLarge))
    }
}

/// A design with the database that it was bound to.
pub struct Side<'s> {
    /// The design.
    pub design: &'s Design,
    /// The database.
    pub source: &'s mut dyn Source,
}

/// What loads cost on both sides: those that are named, or else the lowest few values that the database has for each.
pub fn costs(old: &mut Side, new: &mut Side, named: &[String]) -> Result<Vec<Costs>, Trouble> {
    let mut asked = Vec::new();
    for text in named {
        asked.push(split(old.design, new.design, text).map_err(Trouble::Wrong)?);
    }
    if named.is_empty() {
        let of_old = values(old)?;
        let of_new = values(new)?;
        asked = of_new;
        let missing = of_old.into_iter().filter(|pair| !asked.contains(pair));
        let missing: Vec<_> = missing.collect();
        asked.extend(missing);
    }
    let mut all = Vec::new();
    for (load, value) in asked {
        let before = cost(old, &load, &value)?;
        let after = cost(new, &load, &value)?;
        all.push(Costs {
            load,
            value,
            before,
            after,
        });
    }
    Ok(all)
}

/// `LOAD=VALUE`, whose load at least one of the designs has.
fn split(old: &Design, new: &Design, text: &str) -> Result<(String, String), String> {
    let asked = Asked::read(new, text).map(|asked| (new, asked));
    let (design, asked) = asked.or_else(|why| match Asked::read(old, text) {
        Ok(asked) => Ok((old, asked)),
        Err(_) => Err(why),
    })?;
    Ok((design.loads[asked.load].name.clone(), asked.word.text))
}

/// The lowest few values that the database has for each load.
fn values(side: &mut Side) -> Result<Vec<(String, String)>, Trouble> {
    let mut session = Session::open(side.design, side.source)?;
    let mut all = Vec::new();
    for (number, load) in side.design.loads.iter().enumerate() {
        let values = session.values(number, TRIED)?.into_iter();
        all.extend(values.map(|value| (load.name.clone(), value.to_string())));
    }
    Ok(all)
}

fn cost(side: &mut Side, load: &str, value: &str) -> Result<Cost, Trouble> {
    let mut session = Session::open(side.design, side.source)?;
    let mut loads = side.design.loads.iter();
    let Some(load) = loads.position(|other| other.name == load) else {
        return Ok(Cost::None);
    };
    let wanted = session.wanted(load, &Word::plain(value))?;
    match session.load(load, &wanted) {
        Ok(Referred::NoCandidate) => Ok(Cost::None),
        Ok(_) => Ok(Cost::Rows(session.cached().count())),
        Err(Trouble::TooLarge(_)) => Ok(Cost::TooLarge),
        Err(trouble) => Err(trouble),
    }
}

/// The report for people.
pub fn report(page: &mut Page, costs: &[Costs]) {
    for costs in costs {
        let Costs {
            load,
            value,
            before,
            after,
        } = costs;
        let (text, color) = match (before, after) {
            (Cost::Rows(before), Cost::Rows(after)) if before == after => {
                (format!("{before} rows, as before"), None)
            }
            (Cost::Rows(before), Cost::Rows(after)) => {
                let color = if after < before {
                    Color::Green
                } else {
                    Color::Yellow
                };
                (format!("{before} -> {after} rows"), Some(color))
            }
            (before, after) => {
                let worse = costs.is_worse().then_some(Color::Red);
                (format!("{} -> {}", shown(*before), shown(*after)), worse)
            }
        };
        page.text(&format!("  cost       {load} {value}  "));
        match color {
            Some(color) => page.coloured(color, &text),
            None => page.text(&text),
        }
        page.text("\n");
    }
}

fn shown(cost: Cost) -> String {
    match cost {
        Cost::Rows(rows) => format!("{rows} rows"),
        Cost::TooLarge => format!("more than {MOST_ROWS} rows"),
        Cost::None => "no such load".into(),
    }
}
