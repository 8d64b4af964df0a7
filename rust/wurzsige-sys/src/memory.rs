//! All that a desk keeps.

use alloc::alloc::{alloc_zeroed, handle_alloc_error};
use alloc::boxed::Box;
use core::alloc::Layout;
use core::fmt;

crate::constants::constants! { "wurzsige_sys::":
    /// Numbers of rows.
    ROWS: usize = 512;

    /// Cells, eight to a row.
    CELLS: usize = 4_096;

    /// Words of a design.
    DESIGN_WORDS: usize = 115;

    /// Words of what is held.
    HELD_WORDS: usize = 358;

    /// The catalog: for each cell the next row with its value, for each constraint and row
    /// the first row demanded, for each different value of a column its first row, and for
    /// each column where its values begin.
    CATALOG: usize = 16_449;

    /// The catalog: for each different value of a column, the value.
    KEYS: usize = 4_096;

    /// The working memory of a query: two entries for each row at each of five positions.
    WORKING: usize = 5_120;
}

/// All that a desk keeps, laid out as C's `struct wurzsige`, whose comment in
/// `include/wurzsige.h` says what stands where.
///
/// It is larger than a thread's stack may like, so it is made on the heap by
/// [`Memory::boxed`] and copied there by [`Memory::boxed_copy`].
///
/// ```
/// use wurzsige_sys::{word, Memory};
///
/// let mut memory = Memory::boxed();
/// assert_eq!(memory.open(&[0x01, 2, 0, 0x05]).word, word::DESIGN);
/// assert_eq!(memory.design()[..4], [1, 0, 0, 2]); // a table, of two columns
/// ```
#[repr(C)]
#[derive(PartialEq, Eq)]
pub struct Memory {
    /// The catalog's values.
    pub(crate) keys: [u64; KEYS],
    /// Working memory.
    pub(crate) counts: [u64; WORKING],
    /// The cells' numbers; row r has those from 8 r to 8 r + 7.
    pub(crate) cells: [u32; CELLS],
    /// The design: three counts, then tables, constraints and fillings.
    pub(crate) design: [u32; DESIGN_WORDS],
    /// The named desk, the held values, and the ranges of each desk.
    pub(crate) held: [u32; HELD_WORDS],
    /// The catalog's rows.
    pub(crate) catalog: [u16; CATALOG],
    /// Working memory.
    pub(crate) places: [u16; WORKING],
    /// The cells' issues, in the cells' order.
    pub(crate) issues: [u8; CELLS],
    /// The table of each row; 255 where the number is free.
    pub(crate) tables: [u8; ROWS],
    /// 1 for each cached row, 0 elsewhere.
    pub(crate) marks: [u8; ROWS],
}

impl Memory {
    /// Zeros on the heap. A design may be opened there; until then it is no desk.
    ///
    /// ```
    /// use wurzsige_sys::Memory;
    ///
    /// assert!(Memory::boxed().cells().iter().all(|&cell| cell == 0));
    /// ```
    pub fn boxed() -> Box<Memory> {
        let layout = Layout::new::<Memory>();
        // SAFETY: it isn't of no bytes; and it has integers alone, for which zeros are as
        // good as anything.
        unsafe {
            let memory = alloc_zeroed(layout).cast::<Memory>();
            if memory.is_null() {
                handle_alloc_error(layout);
            }
            Box::from_raw(memory)
        }
    }

    /// A copy on the heap, made there. A copy of a desk is a desk.
    ///
    /// ```
    /// use wurzsige_sys::Memory;
    ///
    /// let mut memory = Memory::boxed();
    /// memory.open(&[0x01, 2, 0, 0x05]);
    /// let copy = memory.boxed_copy();
    /// assert!(copy == memory && copy.design()[0] == 1);
    /// ```
    pub fn boxed_copy(&self) -> Box<Memory> {
        let mut copy = Memory::boxed();
        copy.keys.copy_from_slice(&self.keys);
        copy.counts.copy_from_slice(&self.counts);
        copy.cells.copy_from_slice(&self.cells);
        copy.design.copy_from_slice(&self.design);
        copy.held.copy_from_slice(&self.held);
        copy.catalog.copy_from_slice(&self.catalog);
        copy.places.copy_from_slice(&self.places);
        copy.issues.copy_from_slice(&self.issues);
        copy.tables.copy_from_slice(&self.tables);
        copy.marks.copy_from_slice(&self.marks);
        copy
    }
}

/// The counts alone: all of it would fill pages.
impl fmt::Debug for Memory {
    fn fmt(&self, out: &mut fmt::Formatter<'_>) -> fmt::Result {
        let cached = self.marks.iter().filter(|&&mark| mark == 1).count();
        out.debug_struct("Memory")
            .field("tables", &self.design[0])
            .field("constraints", &self.design[1])
            .field("fillings", &self.design[2])
            .field("held", &self.held[1])
            .field("cached", &cached)
            .finish_non_exhaustive()
    }
}
