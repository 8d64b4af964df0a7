//! All memory that a call is lent. Behind the end of each buffer stands a fence, which no
//! call may touch.

use std::fmt::Display;

use reference::lent::Lent;
use wurzsige_sys::{CATALOG, KEYS};

/// How many items a fence has, and what each of them is.
const FENCE: usize = 8;
const STAKE: u8 = 0xa5;

/// A buffer with its fence.
#[derive(Clone, Debug, PartialEq, Eq)]
pub struct Fenced<T> {
    memory: Vec<T>,
    length: usize,
}

impl<T: Copy + From<u8>> Fenced<T> {
    /// A buffer with its items.
    pub fn new(items: &[T]) -> Fenced<T> {
        let mut memory = Vec::with_capacity(items.len() + FENCE);
        memory.extend_from_slice(items);
        memory.resize(items.len() + FENCE, T::from(STAKE));
        let length = items.len();
        Fenced { memory, length }
    }

    /// A buffer of so many items, all the same.
    pub fn filled(item: T, length: usize) -> Fenced<T> {
        Fenced::new(&vec![item; length])
    }

    /// What is lent.
    pub fn lent(&self) -> &[T] {
        &self.memory[..self.length]
    }

    /// How many items are lent.
    pub fn length(&self) -> usize {
        self.length
    }

    /// What is lent, to be written.
    pub fn lent_mut(&mut self) -> &mut [T] {
        &mut self.memory[..self.length]
    }

    /// The buffer and its fence.
    pub fn with_fence_mut(&mut self) -> &mut [T] {
        &mut self.memory
    }
}

impl<T: Copy + PartialEq + Display> Fenced<T> {
    /// The first item, of the fence too, that isn't as expected.
    fn difference(&self, name: &str, expected: &Fenced<T>) -> Option<String> {
        let mut both = self.memory.iter().zip(&expected.memory);
        let place = both.position(|(item, expected)| item != expected)?;
        let (item, expected) = (self.memory[place], expected.memory[place]);
        let behind = if place < self.length {
            ""
        } else {
            ", behind its end"
        };
        Some(format!("{name}[{place}]{behind} is {item}, not {expected}"))
    }
}

/// The catalog's arrays. The second implementation has no catalog, so that they can be
/// compared only where they are left as they were; elsewhere it shows in trusted steps
/// whether the catalog is right.
#[derive(Clone, Debug, PartialEq, Eq)]
pub struct Catalog {
    /// Rows, for each cell, for each constraint and row, and for each value of a column.
    pub rows: Fenced<u16>,
    /// The different values of columns.
    pub keys: Fenced<u64>,
}

impl Catalog {
    /// Arrays that mean nothing.
    fn filled(byte: u8) -> Catalog {
        let word = u16::from_le_bytes([byte; 2]);
        Catalog {
            rows: Fenced::filled(word, CATALOG),
            keys: Fenced::filled(u64::from_le_bytes([byte; 8]), KEYS),
        }
    }

    fn difference(&self, expected: &Catalog) -> Option<String> {
        None.or_else(|| self.rows.difference("catalog", &expected.rows))
            .or_else(|| self.keys.difference("keys", &expected.keys))
    }
}

/// Everything that a call may write, but for what it tells.
#[derive(Clone, Debug, PartialEq, Eq)]
pub struct Memory {
    /// The words of the design.
    pub design: Fenced<u32>,
    /// The words of what is held.
    pub held: Fenced<u32>,
    /// The numbers of cells.
    pub cells: Fenced<u32>,
    /// The issues of cells.
    pub issues: Fenced<u8>,
    /// The row tables.
    pub tables: Fenced<u8>,
    /// The marks.
    pub marks: Fenced<u8>,
    /// The catalog.
    pub catalog: Catalog,
    /// The answer words.
    pub words: Fenced<u32>,
    /// The text.
    pub text: Fenced<u8>,
    /// Where the design is written.
    pub out: Fenced<u8>,
    /// How many bytes it has.
    pub written: usize,
    /// The sizes of what is to be lent: bytes, words, text.
    pub sizes: [u64; 3],
}

impl Memory {
    /// A lent state, and a catalog, words, text and written bytes that mean nothing.
    pub fn new(lent: &Lent, byte: u8) -> Memory {
        let word = u32::from_le_bytes([byte; 4]);
        Memory {
            design: Fenced::new(&lent.design),
            held: Fenced::new(&lent.held),
            cells: Fenced::new(&lent.cells),
            issues: Fenced::new(&lent.issues),
            tables: Fenced::new(&lent.tables),
            marks: Fenced::new(&lent.marks),
            catalog: Catalog::filled(byte),
            words: Fenced::filled(word, 0),
            text: Fenced::filled(byte, 0),
            out: Fenced::filled(byte, 0),
            written: usize::from_le_bytes([byte; size_of::<usize>()]),
            sizes: [u64::from_le_bytes([byte; 8]); 3],
        }
    }

    /// The memory with so many words and bytes of text to answer in.
    pub fn answering(self, byte: u8, words: usize, text: usize) -> Memory {
        let word = u32::from_le_bytes([byte; 4]);
        Memory {
            words: Fenced::filled(word, words),
            text: Fenced::filled(byte, text),
            ..self
        }
    }

    /// The memory with so many bytes to write the design into.
    pub fn with_room(self, byte: u8, room: usize) -> Memory {
        Memory {
            out: Fenced::filled(byte, room),
            ..self
        }
    }

    /// The state as the second implementation takes it.
    pub fn lent(&self) -> Lent {
        Lent {
            design: self.design.lent().to_vec(),
            held: self.held.lent().to_vec(),
            cells: self.cells.lent().to_vec(),
            issues: self.issues.lent().to_vec(),
            tables: self.tables.lent().to_vec(),
            marks: self.marks.lent().to_vec(),
        }
    }

    /// Takes over the second implementation's state, which has the same lengths.
    pub fn store(&mut self, lent: &Lent) {
        self.design.lent_mut().copy_from_slice(&lent.design);
        self.held.lent_mut().copy_from_slice(&lent.held);
        self.cells.lent_mut().copy_from_slice(&lent.cells);
        self.issues.lent_mut().copy_from_slice(&lent.issues);
        self.tables.lent_mut().copy_from_slice(&lent.tables);
        self.marks.lent_mut().copy_from_slice(&lent.marks);
    }

    /// The first thing that isn't as expected.
    pub fn difference(&self, expected: &Memory) -> Option<String> {
        None.or_else(|| self.design.difference("design", &expected.design))
            .or_else(|| self.held.difference("held", &expected.held))
            .or_else(|| self.cells.difference("cells", &expected.cells))
            .or_else(|| self.issues.difference("issues", &expected.issues))
            .or_else(|| self.tables.difference("tables", &expected.tables))
            .or_else(|| self.marks.difference("marks", &expected.marks))
            .or_else(|| self.catalog.difference(&expected.catalog))
            .or_else(|| self.words.difference("words", &expected.words))
            .or_else(|| self.text.difference("text", &expected.text))
            .or_else(|| self.out.difference("out", &expected.out))
            .or_else(|| told("written", &self.written, &expected.written))
            .or_else(|| told("sizes", &self.sizes, &expected.sizes))
    }
}

/// A difference in something that is told beside an answer.
fn told<T: PartialEq + std::fmt::Debug>(name: &str, given: &T, expected: &T) -> Option<String> {
    (given != expected).then(|| format!("{name} is {given:?}, not {expected:?}"))
}

#[cfg(test)]
mod tests {
    use super::*;

    fn memory() -> Memory {
        Memory::new(&Lent::zeros(), 7).answering(7, 3, 2)
    }

    #[test]
    fn the_same_memory_has_no_difference() {
        assert_eq!(memory().difference(&memory()), None);
    }

    #[test]
    fn a_difference_tells_where_it_is() {
        let mut changed = memory();
        changed.held.lent_mut()[5] = 9;
        changed.text.lent_mut()[1] = 9;
        let difference = changed.difference(&memory());
        assert_eq!(difference.as_deref(), Some("held[5] is 9, not 0"));
        changed.held.lent_mut()[5] = 0;
        let difference = changed.difference(&memory());
        assert_eq!(difference.as_deref(), Some("text[1] is 9, not 7"));
    }

    #[test]
    fn fences_and_catalogs_are_compared_too() {
        let mut changed = memory();
        changed.marks.with_fence_mut()[512] = 0;
        let difference = changed.difference(&memory());
        let expected = "marks[512], behind its end is 0, not 165";
        assert_eq!(difference.as_deref(), Some(expected));
        let mut changed = memory();
        changed.catalog.rows.lent_mut()[16_448] = 1;
        let difference = changed.difference(&memory());
        assert_eq!(difference.as_deref(), Some("catalog[16448] is 1, not 1799"));
    }
}
