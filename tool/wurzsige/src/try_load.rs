//! `try`: what a load drags in, link by link, from the real database.

use std::cmp::Reverse;
use std::collections::BTreeMap;
use std::slice;

use codespan_reporting::term::termcolor::Color;
use design::{Code, Design};
use serde::Serialize;
use session::{Brought, By, Referred, Session, TooLarge, Trouble, Wanted, MOST_ROWS};
use source::Source;

use crate::file::File;
use crate::loads::Asked;
use crate::output::Page;
use crate::status::Status;

/// A load by its number, with what of it.
type Load = (usize, Wanted);

/// What came of a load.
pub enum Tried {
    /// It was loaded, or was held, or is no candidate.
    Answered {
        /// What the desk says.
        answer: Referred,
        /// What brought the rows that it added.
        brought: Vec<Brought>,
    },
    /// It needs more rows than a desk can have.
    TooLarge {
        /// What is known of it, with all that was loaded before.
        large: TooLarge,
        /// Whether something was loaded before; then the rows that it has alone, if it fits.
        beside: Option<Option<usize>>,
        /// The link without which all of them would fit, and the rows that they have then.
        without: Option<(usize, usize)>,
    },
    /// It isn't carried out for another reason.
    Trouble(Trouble),
}

impl Tried {
    fn is_loaded(&self) -> bool {
        let Tried::Answered { answer, .. } = self else {
            return false;
        };
        matches!(answer, Referred::Loaded { .. })
    }
}

/// Loads values one after the other, and tells of each. Gives the rows of the database that were read.
pub fn try_all(
    file: &File,
    source: &mut dyn Source,
    loads: &[Asked],
    mut tell: impl FnMut(&Session, &Asked, &Tried),
) -> Result<usize, Trouble> {
    let Some(design) = file.design() else {
        unreachable!("the design was accepted");
    };
    let mut wanted = Vec::new();
    let mut session = Session::open(design, source)?;
    for asked in loads {
        let next = (asked.load, asked.wanted(&mut session)?);
        let tried = match try_load(&mut session, &next) {
            Tried::Trouble(Trouble::TooLarge(large)) => {
                too_large(&mut session, &wanted, &next, large)
            }
            tried => {
                if tried.is_loaded() {
                    wanted.push(next);
                }
                tried
            }
        };
        tell(&session, asked, &tried);
    }
    Ok(session.rows_read())
}

/// What is told of a load that is too large beside those before it.
fn too_large(session: &mut Session, before: &[Load], next: &Load, large: TooLarge) -> Tried {
    let design = session.design();
    let all = [before, slice::from_ref(next)].concat();
    let (beside, without) = session.over(|source| {
        let alone = |source| rows_of(design, source, slice::from_ref(next));
        let beside = (!before.is_empty()).then(|| alone(source));
        (beside, fits_without(design, source, &all, &large))
    });
    Tried::TooLarge {
        large,
        beside,
        without,
    }
}

/// Loads a value, and tells what came of it.
fn try_load(session: &mut Session, (load, wanted): &Load) -> Tried {
    let before: Vec<u16> = session.cached().collect();
    let answer = match session.load(*load, wanted) {
        Ok(answer) => answer,
        Err(trouble) => return Tried::Trouble(trouble),
    };
    let new = session.cached().filter(|row| !before.contains(row));
    match session.brought(new) {
        Ok(brought) => Tried::Answered { answer, brought },
        Err(refusal) => Tried::Trouble(refusal.into()),
    }
}

/// The link without which loads fit, and the rows that they have then. Links are tried in the order of the rows that they brought.
fn fits_without(
    design: &Design,
    source: &mut dyn Source,
    loads: &[Load],
    large: &TooLarge,
) -> Option<(usize, usize)> {
    let rows = |link: &usize| {
        let brought = large.brought.iter();
        let by = brought.filter(|brought| brought.by == By::Link(*link));
        by.map(|brought| brought.rows).sum::<usize>()
    };
    let mut links: Vec<usize> = (0..design.links.len()).collect();
    links.sort_by_key(|link| Reverse(rows(link)));
    for link in links {
        let mut design = design.clone();
        design.links.remove(link);
        design.questions.clear(); // they name links by their numbers
        if let Some(rows) = rows_of(&design, source, loads) {
            return Some((link, rows));
        }
    }
    None
}

/// How many rows some loads have together, if they fit.
fn rows_of(design: &Design, source: &mut dyn Source, loads: &[Load]) -> Option<usize> {
    let mut session = Session::open(design, source).ok()?;
    for (load, wanted) in loads {
        session.load(*load, wanted).ok()?;
    }
    let rows = session.cached().count();
    Some(rows)
}

/// How a program ends that has tried this.
pub fn status(tried: &Tried) -> Status {
    match tried {
        Tried::Answered { .. } => Status::Good,
        Tried::Trouble(Trouble::Failed(_)) => Status::Unreadable,
        Tried::TooLarge { .. } | Tried::Trouble(_) => Status::Refused,
    }
}

/// The report on one load for people.
pub fn report(page: &mut Page, file: &File, session: &Session, asked: &Asked, tried: &Tried) {
    let design = session.design();
    let name = format!("{} {}", design.loads[asked.load].name, asked.word.text);
    match tried {
        Tried::Answered {
            answer: Referred::Loaded { rows, rounds },
            brought,
        } => {
            page.coloured(Color::Green, &name);
            page.text(&format!(
                ": {} in {} (room for {MOST_ROWS}), as of {}\n",
                counted(*rows, "row"),
                counted(*rounds, "round"),
                session.taken()
            ));
            rows_by_link(page, design, asked, brought);
        }
        Tried::Answered { answer, .. } => {
            page.coloured(Color::Yellow, &name);
            page.text(match answer {
                Referred::Held => ": it is loaded already\n",
                _ => ": the load's `values` don't have it\n",
            });
        }
        Tried::TooLarge {
            large,
            beside,
            without,
        } => {
            page.coloured(Color::Red, &format!("error[{}]", Code::E004.name()));
            page.text(&format!(": {name} needs more than {MOST_ROWS} rows"));
            let (they_need, loaded, they_have) = match beside {
                None => ("it needs", "nothing was loaded", "it has"),
                Some(alone) => {
                    let alone = by_itself(*alone);
                    page.text(&format!(" with what was loaded before\n   = {alone}"));
                    (
                        "together they need",
                        "it was not loaded",
                        "together they have",
                    )
                }
            };
            let (rows, most) = (large.rows, most(design, large));
            page.text(&format!("\n   = {they_need} at least {rows}; {most}\n"));
            page.text(&format!("   = {loaded}: a desk with a part of these rows would call wrong answers complete\n"));
            if let Some((link, rows)) = without {
                let (line, rows) = (file.link_line(*link), counted(*rows, "row"));
                page.text(&format!(
                    "   = help: without link line {line} {they_have} {rows}\n"
                ));
            }
        }
        Tried::Trouble(trouble) => {
            page.coloured(Color::Red, "refused");
            page.text(&format!(": {name}: {trouble}\n"));
        }
    }
}

/// How much of the database was not read.
pub fn not_read(page: &mut Page, rows: u64) {
    page.text(&format!(
        "The other {rows} rows of the database were not read. That does not matter for the desk's answers: docs/SLICES.md.\n"
    ));
}

/// So many of something.
pub fn counted(count: usize, what: &str) -> String {
    match count {
        1 => format!("1 {what}"),
        _ => format!("{count} {what}s"),
    }
}

/// By what rows came, as it is read.
fn by(design: &Design, load: &str, by: By) -> String {
    match by {
        By::Load(_) => format!("by the {load} itself"),
        By::Link(link) => design.link_name(&design.links[link]),
    }
}

fn rows_by_link(page: &mut Page, design: &Design, asked: &Asked, brought: &[Brought]) {
    let all: usize = brought.iter().map(|brought| brought.rows).sum();
    let most = brought.iter().map(|brought| brought.rows).max();
    let table = |brought: &Brought| design.tables[brought.table].name.as_str();
    let wide = |width: Option<usize>| width.unwrap_or(0);
    let tables = wide(brought.iter().map(|one| table(one).chars().count()).max());
    let load = &design.loads[asked.load].name;
    let links = brought.iter().map(|one| by(design, load, one.by));
    let links: Vec<String> = links.collect();
    let width = wide(links.iter().map(|link| link.chars().count()).max());
    for (one, link) in brought.iter().zip(&links) {
        let line = format!("  {:4}  {:tables$}  {link}", one.rows, table(one));
        if Some(one.rows) == most && brought.len() > 1 {
            let share = (one.rows * 100 + all / 2) / all;
            let padded = width - link.chars().count();
            page.text(&format!("{line}{:padded$}", ""));
            page.coloured(Color::Yellow, &format!("  <- {share} % of all rows"));
            page.text("\n");
        } else {
            page.text(&format!("{line}\n"));
        }
    }
}

/// What a load has where nothing else is held.
fn by_itself(rows: Option<usize>) -> String {
    match rows {
        Some(rows) => format!("by itself it has {}", counted(rows, "row")),
        None => format!("by itself it needs more than {MOST_ROWS} rows too"),
    }
}

/// What brings most of the rows that are known to be needed.
pub fn most(design: &Design, large: &TooLarge) -> String {
    let most = large
        .brought
        .iter()
        .min_by_key(|brought| Reverse(brought.rows));
    let Some(&Brought { by, rows, .. }) = most else {
        return "what brings them isn't known".into();
    };
    match by {
        By::Link(link) => {
            let link = design.link_name(&design.links[link]);
            format!("{link} brings most of these, {rows}")
        }
        By::Load(load) => {
            let load = &design.loads[load].name;
            format!("most of these, {rows}, have what is loaded as {load}")
        }
    }
}

/// A line of JSON.
#[derive(Serialize)]
pub struct Json<'a> {
    load: &'a str,
    value: String,
    answer: &'static str,
    #[serde(skip_serializing_if = "Option::is_none")]
    rows: Option<usize>,
    #[serde(skip_serializing_if = "Option::is_none")]
    rounds: Option<usize>,
    #[serde(skip_serializing_if = "Option::is_none")]
    tables: Option<BTreeMap<&'a str, usize>>,
    #[serde(skip_serializing_if = "Option::is_none")]
    links: Option<Vec<JsonLink>>,
    #[serde(skip_serializing_if = "Option::is_none")]
    message: Option<String>,
}

/// How many rows came by a link; null for those that have the value itself.
#[derive(Serialize)]
struct JsonLink {
    link: Option<String>,
    table: String,
    rows: usize,
}

impl<'a> Json<'a> {
    /// What came of a load.
    pub fn of(design: &'a Design, asked: &Asked, tried: &Tried) -> Json<'a> {
        let mut json = Json {
            load: &design.loads[asked.load].name,
            value: asked.word.text.clone(),
            answer: "refused",
            rows: None,
            rounds: None,
            tables: None,
            links: None,
            message: None,
        };
        match tried {
            Tried::Answered { answer, brought } => {
                json.answer = match *answer {
                    Referred::Loaded { rows, rounds } => {
                        (json.rows, json.rounds) = (Some(rows), Some(rounds));
                        json.tables = Some(by_table(design, brought));
                        json.links = Some(by_link(design, brought));
                        "loaded"
                    }
                    Referred::Held => "held",
                    Referred::NoCandidate => "no candidate",
                }
            }
            Tried::TooLarge { large, .. } => {
                json.answer = "too large";
                json.rows = Some(large.rows);
                json.links = Some(by_link(design, &large.brought));
            }
            Tried::Trouble(trouble) => json.message = Some(trouble.to_string()),
        }
        json
    }
}

fn by_table<'a>(design: &'a Design, brought: &[Brought]) -> BTreeMap<&'a str, usize> {
    let mut tables = BTreeMap::new();
    for one in brought {
        *tables
            .entry(design.tables[one.table].name.as_str())
            .or_insert(0) += one.rows;
    }
    tables
}

fn by_link(design: &Design, brought: &[Brought]) -> Vec<JsonLink> {
    let links = brought.iter().map(|one| JsonLink {
        link: match one.by {
            By::Link(link) => Some(design.link_name(&design.links[link])),
            By::Load(_) => None,
        },
        table: design.tables[one.table].name.clone(),
        rows: one.rows,
    });
    links.collect()
}
