//! Fetches and verdicts as lent words. A fetch is five words: 0 for a value or 1 for a span,
//! table, column, then number and issue, or the lowest and the highest number. Fetches rise:
//! values before spans, then by table, column, number and issue; the spans of a column don't
//! overlap. A column's verdict is one word, at place 8 times the table and the column.

use super::flaw::Flaw;
use super::words::byte;
use super::{design, Lent, DESIGN_WORDS};
use crate::design::{Design, MOST_TABLES};
use crate::refusal::Cause;
use crate::script::{Column, Value, CELLS};
use crate::slice::Fetch;

/// The words of a fetch.
pub const FETCH_WORDS: usize = 5;

/// The words of all verdicts.
pub const VERDICT_WORDS: usize = MOST_TABLES * CELLS;

/// What must be fetched next for the lent state, as words, if something must; `count`
/// fetches were made, which stand at the head of the words.
pub fn missing(
    lent: &Lent,
    words: &[u32],
    count: usize,
) -> Result<Option<[u32; FETCH_WORDS]>, Cause> {
    let desk = lent.desk().map_err(Flaw::cause)?;
    Cause::TooShort.unless(count <= words.len() / FETCH_WORDS)?;
    let fetches = fetches_from(desk.design(), &words[..FETCH_WORDS * count]);
    let missing = desk.missing(&fetches.ok_or(Cause::WrongOperand)?);
    Ok(missing.map(fetch_words))
}

/// The fetches, if each is one and they rise.
fn fetches_from(design: &Design, words: &[u32]) -> Option<Vec<Fetch>> {
    let mut fetches = Vec::new();
    let mut last: Option<&[u32]> = None;
    for words in words.chunks_exact(FETCH_WORDS) {
        fetches.push(fetch_from(design, words)?);
        if last.is_some_and(|last| !is_before(last, words)) {
            return None;
        }
        last = Some(words);
    }
    Some(fetches)
}

/// Whether the words of one fetch stand before those of another.
fn is_before(first: &[u32], second: &[u32]) -> bool {
    match first[..3] == second[..3] {
        true if first[0] == 1 => first[4] < second[3],
        _ => first < second,
    }
}

fn fetch_from(design: &Design, words: &[u32]) -> Option<Fetch> {
    let [kind, table, column, number, end] = *words else {
        return None;
    };
    let column = Column {
        table: table as usize,
        column: column as usize,
    };
    if !design.has(column) || number == 0 {
        return None;
    }
    match kind {
        0 => {
            let issue = byte(end, Flaw::ValueIssue).ok()? as u8;
            let value = Value { number, issue };
            Some(Fetch::Value { column, value })
        }
        1 => (number <= end).then_some(Fetch::Span {
            column,
            low: number,
            high: end,
        }),
        _ => None,
    }
}

/// A fetch as words.
pub fn fetch_words(fetch: Fetch) -> [u32; FETCH_WORDS] {
    let words = |kind, column: Column, number, end| {
        let Column { table, column } = column;
        [kind, table as u32, column as u32, number, end]
    };
    match fetch {
        Fetch::Value { column, value } => words(0, column, value.number, value.issue.into()),
        Fetch::Span { column, low, high } => words(1, column, low, high),
    }
}

/// The verdicts on a lent design's columns: 0 where there is no column; else the sum of 1 if
/// a load can be asked for its values, 2 once linked, 4 once unique, 8 never, 16 where seeing
/// is enough, and 256 times the lowest constraint by which it is once linked.
pub fn verdicts(words: &[u32]) -> Result<[u32; VERDICT_WORDS], Cause> {
    Cause::TooShort.unless(words.len() >= DESIGN_WORDS)?;
    let design = design::design_from(words).map_err(Flaw::cause)?;
    let verdict = |place: usize| {
        let (table, column) = (place / CELLS, place % CELLS);
        verdict_word(&design, Column { table, column })
    };
    Ok(std::array::from_fn(verdict))
}

fn verdict_word(design: &Design, column: Column) -> u32 {
    let Some(verdict) = design.verdict(column) else {
        return 0;
    };
    let flags = [
        verdict.fetches,
        verdict.once_linked.is_some(),
        verdict.once_unique,
        verdict.never(),
        verdict.seeing_is_enough,
    ];
    let flags = flags.into_iter().enumerate();
    let flags = flags.map(|(bit, flag)| u32::from(flag) << bit);
    flags.sum::<u32>() + 256 * verdict.once_linked.unwrap_or(0) as u32
}
