//! Why a row is cached: the distances of the cached rows from what is held, round by
//! round, and then the chain from the row back, along the groups that demand it.

use crate::cache::{filling_of, value_of, Cache};
use crate::catalog::Catalog;
use crate::design::{number, value, Design};
use crate::desk::Answer;
use crate::report::put_number;
use crate::{CELLS, CONSTRAINTS, NO_ROW, ROWS};

/// The bytes lent for text. No sentence is longer.
const TEXT_BYTES: usize = 16_384;

/// The working memory and the last sentence: all zeros at first.
pub struct Reasons {
    /// The distance of each row that has been reached by now.
    distance: [u16; ROWS],
    queue: [u16; ROWS],
    /// For each group, by its head and column: whether its rows have been reached.
    full: [bool; CELLS * ROWS],
    text: [u8; TEXT_BYTES],
    length: usize,
}

/// The distance of a row that hasn't been reached.
const FAR: u16 = u16::MAX;

impl Reasons {
    /// The last sentence.
    pub fn text(&self) -> &[u8] {
        &self.text[..self.length]
    }

    /// The report on a row.
    pub fn reason(
        &mut self,
        design: &Design,
        catalog: &Catalog,
        cache: &Cache,
        row: u16,
    ) -> Answer {
        if !design.has_row(usize::from(row)) {
            return Answer::Refused(5);
        }
        if !cache.has(usize::from(row)) {
            return Answer::Absent;
        }
        self.measure(design, catalog, cache, usize::from(row));
        let mut text = Vec::with_capacity(256);
        put(&mut text, b"row ", u64::from(row));
        let mut row = usize::from(row);
        while self.distance[row] > 0 {
            let (constraint, source) = self.before(design, catalog, row);
            put(&mut text, b" by constraint ", constraint as u64);
            put(&mut text, b" from row ", source as u64);
            row = source;
        }
        put_held(&mut text, design, cache, row);
        self.length = text.len();
        self.text[..text.len()].copy_from_slice(&text);
        Answer::Reason(text.len())
    }

    /// Finds the distances from what is held, as far as the row.
    fn measure(&mut self, design: &Design, catalog: &Catalog, cache: &Cache, row: usize) {
        self.distance.fill(FAR);
        self.full.fill(false);
        let mut end = 0;
        for at in 0..cache.held_count {
            let head = cache.held_head[at];
            if head < NO_ROW {
                let filling = filling_of(cache.held[at]) % design.filling.len();
                let place = usize::from(design.filling[filling].column.place);
                end = self.reach(catalog, head, place, 0, end);
            }
        }
        for range in cache.ranges.all() {
            let column = design.filling[usize::from(range.filling)].column;
            let (low, high) = (value(range.low, 0), value(range.high, 0));
            for head in catalog.heads_between(column, low, high) {
                end = self.reach(catalog, head, usize::from(column.place), 0, end);
            }
        }
        let mut at = 0;
        while at < end && self.distance[row] == FAR {
            let from = usize::from(self.queue[at % ROWS]);
            let distance = self.distance[from] + 1;
            at += 1;
            let table = usize::from(design.row_table[from]) % CELLS;
            for link in catalog.leaving[table].all() {
                let head = catalog.first[CONSTRAINTS * from + usize::from(link.number)];
                if head < NO_ROW {
                    end = self.reach(catalog, head, usize::from(link.place), distance, end);
                }
            }
        }
    }

    /// Gives the rows of a group that haven't been reached a distance.
    fn reach(
        &mut self,
        catalog: &Catalog,
        head: u16,
        place: usize,
        distance: u16,
        mut end: usize,
    ) -> usize {
        let full = &mut self.full[CELLS * usize::from(head) + place];
        if *full {
            return end;
        }
        *full = true;
        let mut row = usize::from(head);
        while row < ROWS {
            if self.distance[row] == FAR {
                self.distance[row] = distance;
                self.queue[end % ROWS] = row as u16;
                end += 1;
            }
            row = usize::from(catalog.next[CELLS * row + place]);
        }
        end
    }

    /// The lowest constraint that demands a row of one that is nearer by one, and the
    /// lowest such row. Rows of a group stand in rising order.
    fn before(&self, design: &Design, catalog: &Catalog, row: usize) -> (usize, usize) {
        let nearer = self.distance[row] - 1;
        let table = usize::from(design.row_table[row]) % CELLS;
        for link in catalog.entering[table].all() {
            let number = usize::from(link.number);
            let head = catalog.head[CELLS * row + usize::from(link.place)];
            if head >= NO_ROW {
                continue;
            }
            let place = usize::from(design.constraint[number % CONSTRAINTS].source.place);
            let mut source =
                usize::from(catalog.demander[CONSTRAINTS * usize::from(head) + number]);
            while source < ROWS {
                if self.distance[source] == nearer {
                    return (number, source);
                }
                source = usize::from(catalog.next[CELLS * source + place]);
            }
        }
        unreachable!("a row at a distance is demanded by one nearer")
    }
}

/// Puts what is held of a row: the lowest filling, and its value if that is held, or
/// the lowest range that has it.
fn put_held(text: &mut Vec<u8>, design: &Design, cache: &Cache, row: usize) {
    for filling in 0..design.fillings {
        let column = design.filling[filling].column;
        let own = design.value(CELLS * row + usize::from(column.place));
        if design.row_table[row] != column.table || own == 0 {
            continue;
        }
        let held = cache.held[..cache.held_count].iter();
        let mut keys = held.map(|&key| (filling_of(key), value_of(key)));
        if keys.any(|key| key == (filling, own)) {
            put(text, b" by value ", u64::from(number(own)));
            if own & 0xff != 0 {
                put(text, b" issue ", own & 0xff);
            }
        } else if let Some(range) = cache.ranges.lowest(filling as u8, own) {
            put(text, b" by range ", range.low.into());
            put(text, b" to ", range.high.into());
        } else {
            continue;
        }
        put(text, b" of filling ", filling as u64);
        return;
    }
}

fn put(text: &mut Vec<u8>, words: &[u8], number: u64) {
    text.extend_from_slice(words);
    put_number(text, number);
}
