//! Sessions: the same operations on a desk that is fed and on a desk that has the whole
//! database, with changes of the database between them. What both answer is the same at each
//! point, and so are the cached rows.

use compare::random::Random;
use reference::desk::{Answer, Desk};
use reference::lent::Told;
use reference::script::read_command;

use crate::database::whole;
use crate::feeder::{Fed, Feeder};
use crate::library::Library;
use crate::operations::{operation, Operation};
use crate::tally::Tally;

/// How many operations a session has.
const OPERATIONS: usize = 100;

/// Goes through the session with the given number among those of a seed.
pub fn compare(
    library: &dyn Library,
    seed: u64,
    number: u64,
    rows: usize,
    tally: &mut Tally,
) -> Result<(), String> {
    let mut random = Random::new(seed, number);
    let mut full = whole(&mut random, rows);
    let mut feeder = Feeder::new(library, full.design());
    for place in 0..OPERATIONS {
        let operation = operation(&mut random, &full, rows);
        let outcome = step(&mut feeder, &mut full, &operation, tally);
        outcome.map_err(|difference| {
            format!("operation {place} of session {number}, {operation:?}: {difference}")
        })?;
    }
    Ok(())
}

/// One operation on both. One that a desk has no room for is left out.
fn step(
    feeder: &mut Feeder,
    full: &mut Desk,
    operation: &Operation,
    tally: &mut Tally,
) -> Result<(), String> {
    let mut after = full.clone();
    let answer = match operation {
        Operation::Command(bytes) => {
            let (command, _) = read_command(bytes, 0).map_err(|_| "no command")?;
            after.perform(&command)
        }
        Operation::Put(number, row) => after.put_anywhere(*number, *row),
        Operation::Take(number) => {
            let take = reference::script::Command::Take(*number);
            after.perform(&take)
        }
    };
    let is_change = !matches!(operation, Operation::Command(_));
    if is_change && answer.is_err() {
        return Ok(());
    }
    let design = after.design();
    let fed = match operation {
        Operation::Command(bytes) => feeder.perform(design, bytes)?,
        Operation::Put(number, _) => feeder.put(design, *number)?,
        Operation::Take(number) => feeder.take(design, *number)?,
    };
    let Fed::Answered(told, words) = fed else {
        let cached = after.cached().iter().filter(|&&cached| cached).count();
        tally.too_many_rows();
        // A refused question is undone, but was worked on.
        return match cached > 512 || answer.is_err() {
            true => Ok(()),
            false => Err(format!("no room for {cached} rows")),
        };
    };
    let expected = match &answer {
        Ok(answer) => Told::answered(answer, 0),
        Err(cause) => Told::refused(*cause, 0, 0),
    };
    if (told.word, told.numbers) != (expected.word, expected.numbers) {
        let (told, expected) = (shown(&told), shown(&expected));
        return Err(format!("{told}, not {expected}"));
    }
    if let Ok(Answer::Lists(expected)) = &answer {
        same_lists(feeder, &words, expected)?;
    }
    *full = after;
    same_rows(feeder, full)?;
    tally.answered(&expected, feeder, full);
    Ok(())
}

fn shown(told: &Told) -> String {
    let numbers = &told.numbers[..told.count.into()];
    format!("word {} with {numbers:?}", told.word)
}

/// The lists are the database's, under its numbers. They stand in the order of the slice's.
fn same_lists(feeder: &Feeder, words: &[u32], expected: &[Vec<usize>]) -> Result<(), String> {
    let positions = expected.first().map_or(1, Vec::len);
    let lists = words.chunks(positions).take(expected.len());
    let number = |word: &u32| feeder.at[*word as usize];
    let lists = lists.map(|list| list.iter().map(number).collect());
    let lists: Option<Vec<Vec<usize>>> = lists.collect();
    let mut lists = lists.ok_or("a list has a row that isn't there")?;
    lists.sort_unstable();
    match lists == expected {
        true => Ok(()),
        false => Err(format!("lists {lists:?}, not {expected:?}")),
    }
}

/// The cached rows are the database's, under its numbers.
fn same_rows(feeder: &Feeder, full: &Desk) -> Result<(), String> {
    let marked = (0..feeder.at.len()).filter(|&row| feeder.lent.marks[row] == 1);
    let rows: Option<Vec<usize>> = marked.map(|row| feeder.at[row]).collect();
    let mut rows = rows.ok_or("a cached row that isn't the database's")?;
    rows.sort_unstable();
    let cached = full.cached().iter().enumerate();
    let cached = cached.filter_map(|(row, &cached)| cached.then_some(row));
    match cached.eq(rows.iter().copied()) {
        true => Ok(()),
        false => Err(format!(
            "{} rows are cached, and others in the database",
            rows.len()
        )),
    }
}
