//! What brought the cached rows: each row is counted under the link that its reason names first, as the library tells it.

use std::collections::BTreeMap;

use wurzsige::{Desk, Fetch, Ground, Origin, Probed, Reason, Reasoned, Refusal};

/// What a row came by.
#[derive(Clone, Copy, Debug, PartialEq, Eq, PartialOrd, Ord, Hash)]
pub enum By {
    /// A load, by its number in the design: the row has a value that is held.
    Load(usize),
    /// A link, by its number in the design.
    Link(usize),
}

/// How many rows of a table came by one link, or by a load itself.
#[derive(Clone, Copy, Debug, PartialEq, Eq)]
pub struct Brought {
    /// The table's number in the design.
    pub table: usize,
    /// By what.
    pub by: By,
    /// How many links lie between a load and the nearest of these rows.
    pub round: usize,
    /// The rows.
    pub rows: usize,
}

/// Counts some cached rows, in the order of their rounds, then by link.
pub(crate) fn brought(
    desk: &Desk,
    rows: impl Iterator<Item = u16>,
) -> Result<Vec<Brought>, Refusal> {
    Ok(counted(desk, rows)?.in_order())
}

/// Counts all cached rows, and so many that a fetch would bring.
pub(crate) fn brought_with(
    desk: &Desk,
    fetch: Fetch,
    more: usize,
) -> Result<Vec<Brought>, Refusal> {
    let mut counts = counted(desk, desk.cached())?;
    if let Some((by, round)) = demanded(desk, fetch)? {
        counts.add(fetch.column().table.into(), by, round, more);
    }
    Ok(counts.in_order())
}

/// Rows by table and by what they came.
#[derive(Default)]
struct Counts(BTreeMap<(usize, By), Brought>);

impl Counts {
    fn add(&mut self, table: usize, by: By, round: usize, rows: usize) {
        let none = Brought {
            table,
            by,
            round,
            rows: 0,
        };
        let count = self.0.entry((table, by)).or_insert(none);
        count.rows += rows;
        count.round = count.round.min(round);
    }

    fn in_order(self) -> Vec<Brought> {
        let mut counts: Vec<Brought> = self.0.into_values().collect();
        counts.sort_by_key(|count| (count.round, count.by, count.table));
        counts
    }
}

fn counted(desk: &Desk, rows: impl Iterator<Item = u16>) -> Result<Counts, Refusal> {
    let mut counts = Counts::default();
    for number in rows {
        if let (Some(reason), Some(row)) = (reason(desk, number)?, desk.row(number)) {
            let by = match (reason.steps().first(), reason.origin()) {
                (Some(step), _) => By::Link(step.constraint.into()),
                (None, Origin::Value { filling, .. }) => By::Load(filling.into()),
                (None, Origin::Range(range)) => By::Load(range.filling.into()),
            };
            counts.add(row.table.into(), by, reason.steps().len(), 1);
        }
    }
    Ok(counts)
}

fn reason(desk: &Desk, row: u16) -> Result<Option<Reason>, Refusal> {
    Ok(match desk.reason(row)? {
        Reasoned::Reason(reason) => Some(reason),
        Reasoned::Absent => None,
    })
}

/// What demands the rows of a fetch, and in which round: a load that holds their value, or else of the links that start at it the one of the nearest row, and
/// of several the lowest, as reasons have it.
fn demanded(desk: &Desk, fetch: Fetch) -> Result<Option<(By, usize)>, Refusal> {
    let design = desk.design();
    let column = fetch.column();
    let is_held = match fetch {
        Fetch::Span { .. } => true,
        Fetch::Value { value, .. } => {
            let probed = desk.probe(column, value)?;
            matches!(
                probed,
                Probed::Ground {
                    ground: Ground::Held,
                    ..
                }
            )
        }
    };
    if is_held {
        let filling = design
            .fillings
            .iter()
            .position(|filling| filling.column == column);
        return Ok(filling.map(|load| (By::Load(load), 0)));
    }
    let mut nearest: Option<(usize, usize)> = None;
    for (number, row) in desk.rows().filter(|(number, _)| desk.is_cached(*number)) {
        let links = design.constraints.iter().enumerate();
        let starts = links.filter(|(_, link)| {
            let value = row.cells[usize::from(link.source.column)];
            link.target == column && link.source.table == row.table && fetch.covers(column, value)
        });
        for (link, _) in starts {
            if let Some(reason) = reason(desk, number)? {
                let found = (reason.steps().len() + 1, link);
                nearest = Some(nearest.map_or(found, |nearest| nearest.min(found)));
            }
        }
    }
    Ok(nearest.map(|(round, link)| (By::Link(link), round)))
}
