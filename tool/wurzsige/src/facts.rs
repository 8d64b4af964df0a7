//! What the library says of a design, in the design's names: its knots, which links untie it, and the verdicts on columns and questions.

use std::collections::{HashSet, VecDeque};

use design::{script, script_with, Cells, Design, Load, Place, Question};

use crate::library::{Library, Refused, Verdict, Verdicts};

/// What the library says of a design.
#[derive(Clone, Debug)]
pub struct Facts {
    /// All knots, each the numbers of its links, those of the fewest links first.
    pub knots: Vec<Vec<usize>>,
    /// The links of which each, taken out alone, leaves an even design; none for an even one.
    pub untied_by: Vec<usize>,
    verdicts: Verdicts,
    cells: Cells,
}

impl Facts {
    /// Asks the library.
    pub fn of(design: &Design) -> Result<Facts, Refused> {
        let library = Library::open(&script(design))?;
        let knots = knots(design)?;
        Ok(Facts {
            untied_by: match knots.is_empty() {
                true => Vec::new(),
                false => untied_by(design)?,
            },
            knots,
            verdicts: library.verdicts(),
            cells: Cells::of(design),
        })
    }

    /// Whether the design is even.
    pub fn is_even(&self) -> bool {
        self.knots.is_empty()
    }

    /// The verdict on a column, if it takes a cell.
    fn verdict(&self, place: Place) -> Option<Verdict> {
        let cell = self.cells.cell(place)?;
        Some(self.verdicts.of(place.table, cell))
    }

    /// The verdict on the column that a question of the design asks for.
    pub fn verdict_on(&self, question: &Question) -> Verdict {
        let cell = cell_of(&self.cells, question);
        self.verdicts.of(question.column.table, cell)
    }

    /// The columns in which a value that is seen is complete, and some can be seen.
    pub fn seen_is_all(&self, design: &Design) -> Vec<Place> {
        let columns = |table| {
            self.cells
                .columns(table)
                .iter()
                .map(move |&column| Place { table, column })
        };
        let places = (0..design.tables.len()).flat_map(columns);
        let seen = |place: &Place| {
            let verdict = self.verdict(*place);
            verdict.is_some_and(|verdict| verdict.seen_is_all() && !verdict.never())
        };
        places.filter(seen).collect()
    }
}

/// What becomes of a question.
#[derive(Clone, Copy, Debug, PartialEq, Eq, PartialOrd, Ord)]
pub enum Outcome {
    /// It is always sent to the database.
    Never,
    /// It is answered once a certain row is here.
    OnceHere,
    /// It loads what it asks for.
    Always,
}

impl Outcome {
    /// As it is written.
    pub fn name(self) -> &'static str {
        match self {
            Outcome::Never => "never",
            Outcome::OnceHere => "once here",
            Outcome::Always => "always",
        }
    }

    /// What becomes of a question.
    pub fn of(facts: &Facts, question: &Question) -> Outcome {
        Outcome::by(facts.verdict_on(question))
    }

    fn by(verdict: Verdict) -> Outcome {
        match verdict {
            _ if verdict.fetches() => Outcome::Always,
            _ if verdict.never() => Outcome::Never,
            _ => Outcome::OnceHere,
        }
    }
}

/// What would become of a question with one load more.
pub fn outcome_with(design: &Design, load: Load, question: &Question) -> Result<Outcome, Refused> {
    let mut design = design.clone();
    design.loads.push(load);
    let verdicts = Library::open(&script(&design))?.verdicts();
    let cell = cell_of(&Cells::of(&design), question);
    Ok(Outcome::by(verdicts.of(question.column.table, cell)))
}

/// The cell of the column that a question asks for.
fn cell_of(cells: &Cells, question: &Question) -> usize {
    let Some(cell) = cells.cell(question.column) else {
        unreachable!("a column that a question uses takes a cell");
    };
    cell
}

/// A set of links, bit i for link i.
type Links = u32;

fn is_in(links: Links, link: usize) -> bool {
    links >> link & 1 == 1
}

/// Whether all links of a part are in a set.
fn includes(links: Links, part: Links) -> bool {
    links & part == part
}

fn with(links: Links, link: usize) -> Links {
    links | 1 << link
}

/// The smallest knot of a design without some of its links, by the numbers that they have with all.
fn knot_without(design: &Design, out: Links) -> Result<Vec<usize>, Refused> {
    let kept: Vec<usize> = (0..design.links.len())
        .filter(|&link| !is_in(out, link))
        .collect();
    let knot = Library::open(&script_with(design, &kept))?.knot();
    Ok(knot.into_iter().map(|link| kept[link]).collect())
}

fn untied_by(design: &Design) -> Result<Vec<usize>, Refused> {
    let mut untying = Vec::new();
    for link in 0..design.links.len() {
        if knot_without(design, with(0, link))?.is_empty() {
            untying.push(link);
        }
    }
    Ok(untying)
}

/// All knots: the smallest one, and with its links taken out one at a time those that are left, until none is.
///
/// Sets of links are taken out in order of their size. Where a knot that is known has lost none of its links, it is left there, and the library
/// needn't be asked; where all that was taken out of an even design is out, nothing is.
fn knots(design: &Design) -> Result<Vec<Vec<usize>>, Refused> {
    let mut known: Vec<(Links, Vec<usize>)> = Vec::new();
    let mut even: Vec<Links> = Vec::new();
    let mut queue = VecDeque::from([0]);
    let mut seen = HashSet::from([0]);
    while let Some(out) = queue.pop_front() {
        if even.iter().any(|&even| includes(out, even)) {
            continue;
        }
        let left = known.iter().find(|(links, _)| links & out == 0);
        let knot = match left {
            Some((_, knot)) => knot.clone(),
            None => knot_without(design, out)?,
        };
        if knot.is_empty() {
            even.push(out);
        } else if left.is_none() {
            let links = knot.iter().fold(0, |links, &link| with(links, link));
            known.push((links, knot.clone()));
        }
        let next = knot.into_iter().map(|link| with(out, link));
        queue.extend(next.filter(|&out| seen.insert(out)));
    }
    let mut knots: Vec<Vec<usize>> = known.into_iter().map(|(_, knot)| knot).collect();
    knots.sort_by_key(Vec::len);
    Ok(knots)
}
