//! What loads drag in of a database, and what a second one beside each adds: all that the page's boxes show, asked of the library beforehand.

use std::collections::{BTreeSet, HashMap};
use std::rc::Rc;

use design::{Design, Place, Question};
use session::{Brought, Identity, Issued, Probed, Referred, Session, Trouble, Wanted};

/// A load with one of its values.
#[derive(Clone, Debug, PartialEq, Eq)]
pub struct Choice {
    /// The load's number.
    pub load: usize,
    /// What of it.
    pub wanted: Wanted,
}

/// All that was asked of a database.
pub struct Costs {
    /// When the snapshot was taken.
    pub taken: String,
    /// How many rows the design's tables have in the database.
    pub size: u64,
    /// Each choice with what it drags in.
    pub boxes: Vec<Cost>,
    /// The rows that boxes name.
    pub rows: Vec<Named>,
    /// For each choice and each other one, what the other one adds beside it.
    pub beside: Vec<Vec<Beside>>,
}

/// What a choice drags in.
pub struct Cost {
    /// The choice.
    pub choice: Choice,
    /// What the desk said of it.
    pub said: Said,
}

/// What the desk said of a load.
pub enum Said {
    /// It is held, with all that it drags in.
    Loaded(Loaded),
    /// It needs more rows than a desk can have; so many were known when it was broken off.
    TooLarge(usize),
    /// It isn't among the load's values.
    NoCandidate,
}

/// What is here after a load.
pub struct Loaded {
    /// Rounds along links after the first rows.
    pub rounds: usize,
    /// The rows, table by table and round by round.
    pub rows: Vec<Reached>,
    /// By which links they came.
    pub brought: Vec<Brought>,
    /// For each question how many of the values that can be asked for are complete.
    pub questions: Vec<Complete>,
}

/// A row that a load has reached, and why it is here.
///
/// Its round is the number of links in its reason: the library gives one of the shortest chains (02, Req 08), and the rows that come in a round are those which
/// a link demands of a row of the round before, and no shorter chain does.
pub struct Reached {
    /// The row, by its number among [`Costs::rows`].
    pub row: usize,
    /// The links from the row back, each with the row that it starts at.
    pub steps: Vec<(usize, usize)>,
}

impl Reached {
    /// The round in which the row came; 0 for a row that has the loaded value itself.
    pub fn round(&self) -> usize {
        self.steps.len()
    }
}

/// A row of the database as it is called.
pub struct Named {
    /// Its table's number.
    pub table: usize,
    /// How it is called.
    pub label: String,
}

/// Of how many values a question is answered.
pub struct Complete {
    /// The values of its column that the rows here know of: they have it there, or at the start of a link that ends there.
    pub known: usize,
    /// Those of them that are complete.
    pub complete: usize,
}

/// What a second load adds beside a first one.
pub enum Beside {
    /// It is the same one.
    Same,
    /// One of them can't be loaded even by itself.
    Alone,
    /// Each can be loaded, but both together need more rows than a desk can have.
    TooLarge,
    /// Both are held.
    Both {
        /// The rows that it adds, by their numbers among [`Costs::rows`].
        adds: BTreeSet<usize>,
        /// The rows of it that the first one needs too.
        shared: BTreeSet<usize>,
    },
}

impl Costs {
    /// Asks for each choice, and for each two of them.
    pub fn of(session: &mut Session, choices: Vec<Choice>) -> Result<Costs, Trouble> {
        let mut rows = Register::default();
        let mut boxes = Vec::new();
        for choice in choices {
            let said = said(session, &choice, &mut rows)?;
            boxes.push(Cost { choice, said });
        }
        let beside = beside(session, &boxes, &mut rows)?;
        Ok(Costs {
            taken: session.taken().to_string(),
            size: session.size()?,
            boxes,
            rows: rows.named,
            beside,
        })
    }
}

/// The rows that were met, each under one number.
#[derive(Default)]
struct Register {
    named: Vec<Named>,
    numbers: HashMap<Rc<Identity>, usize>,
}

impl Register {
    /// The number of a row of the session's slice.
    fn number(&mut self, session: &Session, row: u16) -> usize {
        let Some(entry) = session.row(row) else {
            unreachable!("a cached row is in the slice");
        };
        let next = self.named.len();
        let number = *self.numbers.entry(entry.identity.clone()).or_insert(next);
        if number == next {
            self.named.push(Named {
                table: entry.identity.table,
                label: entry.label.clone(),
            });
        }
        number
    }

    /// The numbers of all rows that are cached.
    fn cached(&mut self, session: &Session) -> BTreeSet<usize> {
        let cached: Vec<u16> = session.cached().collect();
        cached
            .into_iter()
            .map(|row| self.number(session, row))
            .collect()
    }
}

/// What the desk says of a choice if nothing else is held.
fn said(session: &mut Session, choice: &Choice, rows: &mut Register) -> Result<Said, Trouble> {
    session.clear()?;
    match session.load(choice.load, &choice.wanted) {
        Ok(Referred::Loaded { rounds, .. }) => {
            Ok(Said::Loaded(loaded(session, choice, rounds, rows)?))
        }
        Ok(Referred::NoCandidate) => Ok(Said::NoCandidate),
        Ok(Referred::Held) => unreachable!("nothing was held"),
        Err(Trouble::TooLarge(too_large)) => Ok(Said::TooLarge(too_large.rows)),
        Err(trouble) => Err(trouble),
    }
}

/// What is here after a load.
fn loaded(
    session: &mut Session,
    choice: &Choice,
    rounds: usize,
    rows: &mut Register,
) -> Result<Loaded, Trouble> {
    let cached: Vec<u16> = session.cached().collect();
    let mut reached = Vec::new();
    for &row in &cached {
        let reason = session.reason(row)?;
        let steps = reason.into_iter().flat_map(|reason| reason.steps);
        reached.push(Reached {
            row: rows.number(session, row),
            steps: steps
                .map(|step| (step.link, rows.number(session, step.from)))
                .collect(),
        });
    }
    reached.sort_by_key(|reached| {
        let Named { table, label } = &rows.named[reached.row];
        (*table, reached.round(), label)
    });
    let design = session.design();
    let mut questions = Vec::new();
    for question in &design.questions {
        questions.push(complete(session, design, question, choice, &cached)?);
    }
    Ok(Loaded {
        rounds,
        rows: reached,
        brought: session.brought(cached.into_iter())?,
        questions,
    })
}

/// Of how many values that are known here a question is answered, as probes say.
fn complete(
    session: &mut Session,
    design: &Design,
    question: &Question,
    choice: &Choice,
    cached: &[u16],
) -> Result<Complete, Trouble> {
    let mut known = BTreeSet::new();
    let links = design.links.iter();
    let sources = links.filter(|link| link.target == question.column);
    let places = sources.map(|link| link.source).chain([question.column]);
    for place in places {
        let entries = cached.iter().filter_map(|&row| session.row(row));
        let rows = entries.filter(|entry| entry.identity.table == place.table);
        known.extend(rows.filter_map(|entry| value_at(&entry.record, place)));
    }
    if let (Wanted::Value(value), true) = (
        &choice.wanted,
        design.loads[choice.load].column == question.column,
    ) {
        known.insert(value.clone());
    }
    let mut complete = 0;
    for value in &known {
        complete += usize::from(session.probe(question.column, value)? != Probed::Sent);
    }
    Ok(Complete {
        known: known.len(),
        complete,
    })
}

/// What a row has in a column; none for NULL.
fn value_at(record: &source::Record, place: Place) -> Option<Issued> {
    let value = record.values[place.column].clone()?;
    let issue = record.issues[place.column];
    Some(Issued { value, issue })
}

/// What each choice adds beside each other one: the first is held at desk 0, the second at desk 1, so that neither is joined to the other.
fn beside(
    session: &mut Session,
    boxes: &[Cost],
    rows: &mut Register,
) -> Result<Vec<Vec<Beside>>, Trouble> {
    let mut all = Vec::new();
    for first in boxes {
        session.clear()?;
        session.name_desk(0)?;
        let held = match first.said {
            Said::Loaded(_) => {
                session.load(first.choice.load, &first.choice.wanted)?;
                Some(rows.cached(session))
            }
            _ => None,
        };
        session.name_desk(1)?;
        let mut each = Vec::new();
        for second in boxes {
            each.push(match (&held, &second.said) {
                _ if second.choice == first.choice => Beside::Same,
                (Some(held), Said::Loaded(alone)) => {
                    added(session, &second.choice, alone, held, rows)?
                }
                _ => Beside::Alone,
            });
        }
        all.push(each);
    }
    session.name_desk(0)?;
    Ok(all)
}

/// What a second load adds to the rows that a first one holds. It is dropped again.
fn added(
    session: &mut Session,
    second: &Choice,
    alone: &Loaded,
    held: &BTreeSet<usize>,
    rows: &mut Register,
) -> Result<Beside, Trouble> {
    match session.load(second.load, &second.wanted) {
        Err(Trouble::TooLarge(_)) => return Ok(Beside::TooLarge),
        loaded => loaded?,
    };
    let both = rows.cached(session);
    session.drop_load(second.load, &second.wanted)?;
    let adds: BTreeSet<usize> = both.difference(held).copied().collect();
    let alone: BTreeSet<usize> = alone.rows.iter().map(|reached| reached.row).collect();
    let shared = alone.difference(&adds).copied().collect();
    Ok(Beside::Both { adds, shared })
}
