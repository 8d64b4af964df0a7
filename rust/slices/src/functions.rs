//! `missing` and the verdicts, beside the second implementation, on lent states of every
//! kind and on lists of fetches of every kind.

use compare::random::Random;
use lent::change::change;
use lent::states::sound;
use reference::desk::Desk;
use reference::lent::{fetch_words, Lent, FETCH_WORDS, VERDICT_WORDS};
use reference::slice::Fetch;

use crate::fetches::Fetches;
use crate::library::{FetchWords, Library, SecondImplementation, VerdictWords};
use crate::tally::Tally;

/// What stands where a fetch or verdicts are to be written.
const BEFORE: u32 = 0xc3c3_c3c3;

/// A lent state and a list of fetches, with the number of them that is given.
#[derive(Clone, Debug)]
pub struct Case {
    /// The state.
    pub lent: Lent,
    /// The words of the fetches.
    pub fetches: Vec<u32>,
    /// How many they are said to be.
    pub count: usize,
}

impl Case {
    /// The case with the given number among those of a seed.
    pub fn new(seed: u64, number: u64) -> Case {
        let mut random = Random::new(seed, number);
        let sound = sound(&mut random).lent;
        let desk = sound.desk().expect("a sound state");
        let made = made(&mut random, &desk);
        let (mut fetches, mut count) = (made.words(), made.count());
        if random.percent(35) {
            spoil(&mut random, &mut fetches, &mut count);
        }
        let lent = match random.percent(60) {
            true => sound,
            false => change(&mut random, &sound).lent,
        };
        Case {
            lent,
            fetches,
            count,
        }
    }
}

/// A list that rises: some of what is asked for, in its order, and some of anything.
fn made(random: &mut Random, desk: &Desk) -> Fetches {
    let mut asked = Vec::new();
    let most = random.below(40);
    while asked.len() < most {
        let Some(fetch) = desk.missing(&asked) else {
            break;
        };
        asked.push(narrowed(random, fetch));
    }
    let mut made = Fetches::default();
    for fetch in asked {
        made.note(fetch_words(fetch));
    }
    for _ in 0..random.below(4) {
        if let Some(value) = any_value(random, desk) {
            made.note(value);
        }
    }
    if made.count() > 0 && random.percent(25) {
        made.remove(random.below(made.count()));
    }
    made
}

/// A part of a span that was asked for, now and then: then more is asked for behind it, or
/// before it.
fn narrowed(random: &mut Random, fetch: Fetch) -> Fetch {
    let Fetch::Span { column, low, high } = fetch else {
        return fetch;
    };
    let width = (high - low).min(9) as usize;
    let [first, last] = [(); 2].map(|()| low + random.below(width + 1) as u32);
    match random.below(3) {
        0 => fetch,
        1 => Fetch::Span {
            column,
            low,
            high: first,
        },
        _ => Fetch::Span {
            column,
            low: first.min(last),
            high: first.max(last),
        },
    }
}

/// The fetch of some cell's value, in its column or in another.
fn any_value(random: &mut Random, desk: &Desk) -> Option<FetchWords> {
    let design = desk.design();
    let row = design.rows.get(random.below(design.rows.len().max(1)))?;
    let row = row.as_ref()?;
    let table = random.below(design.tables.len());
    let column = random.below(design.tables[table].columns);
    let cell = row.cells[random.below(row.cells.len())];
    let (table, column) = (table as u32, column as u32);
    (cell.number > 0).then_some([0, table, column, cell.number, cell.issue.into()])
}

/// Makes a list one that is refused, or at least another one.
fn spoil(random: &mut Random, fetches: &mut Vec<u32>, count: &mut usize) {
    match random.below(6) {
        0 if *count > 1 => {
            let [first, second] = [(); 2].map(|()| random.below(*count));
            for word in 0..FETCH_WORDS {
                fetches.swap(FETCH_WORDS * first + word, FETCH_WORDS * second + word);
            }
        }
        1 if *count > 0 => {
            let place = random.below(*count);
            let again = fetches[FETCH_WORDS * place..][..FETCH_WORDS].to_vec();
            fetches.splice(FETCH_WORDS * place..FETCH_WORDS * place, again);
            *count += 1;
        }
        2 => *count += 1 + random.below(3),
        3 => *count = *random.pick(&[usize::MAX, usize::MAX / 5 + 1, 1 << 40]),
        4 => fetches.extend([9; 3]),
        _ if !fetches.is_empty() => {
            let place = random.below(fetches.len());
            let word = fetches[place];
            let other = [0, 1, 2, 8, 255, 256, u32::MAX, word.wrapping_add(1)];
            fetches[place] = *random.pick(&other);
        }
        _ => {}
    }
}

/// Calls the library and the second implementation, and gives the first difference.
pub fn compare(library: &dyn Library, case: &Case, tally: &mut Tally) -> Result<(), String> {
    let Case {
        lent,
        fetches,
        count,
    } = case;
    let call = |library: &dyn Library| {
        let mut fetch: FetchWords = [BEFORE; FETCH_WORDS];
        let told = library.missing(lent, fetches, *count, &mut fetch);
        (told, fetch)
    };
    let expected = call(&SecondImplementation);
    same("missing", call(library), expected)?;
    tally.missing(expected.0, &expected.1);
    // A trusted call is for a sound state; it refuses lists of fetches like the plain one.
    if lent.desk().is_ok() {
        let mut fetch: FetchWords = [BEFORE; FETCH_WORDS];
        let told = library.missing_trusted(lent, fetches, *count, &mut fetch);
        same("missing, trusted", (told, fetch), expected)?;
    }
    let call = |library: &dyn Library| {
        let mut verdicts: VerdictWords = [BEFORE; VERDICT_WORDS];
        let told = library.verdicts(&lent.design, &mut verdicts);
        (told, verdicts)
    };
    let expected = call(&SecondImplementation);
    same("verdicts", call(library), expected)?;
    tally.verdicts(expected.0, &expected.1);
    Ok(())
}

fn same<T: PartialEq + std::fmt::Debug>(what: &str, given: T, expected: T) -> Result<(), String> {
    match given == expected {
        true => Ok(()),
        false => Err(format!("{what}: {given:?}, not {expected:?}")),
    }
}
