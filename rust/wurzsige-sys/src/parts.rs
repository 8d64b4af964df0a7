//! The exported functions, which take each part of a desk by itself. A Rattle slice goes
//! across as a pointer and a length, and an array of a fixed length as a pointer, which
//! is what a reference to an array is in Rust.
//!
//! Every call asks that each pointer goes with a buffer of the length behind it, aligned
//! for its type, and that the buffers and arrays of one call don't overlap. A buffer of
//! no bytes has a pointer too, which isn't null.

use crate::memory::{CATALOG, HELD_WORDS, KEYS, WORKING};
use crate::slices::{FETCH_WORDS, VERDICT_WORDS};
use crate::told::NUMBERS;

unsafe extern "C" {
    /// The library's version, as [`crate::VERSION`] has it.
    ///
    /// # Safety
    ///
    /// Nothing is asked.
    pub fn wurzsige_version() -> u32;

    /// Opens the design at the start of a script in memory that may hold anything. A
    /// refusal leaves it as it was.
    ///
    /// # Safety
    ///
    /// What every call here asks.
    pub fn wurzsige_parts_open(
        script: *const u8,
        script_length: usize,
        cells: *mut u32,
        cells_length: usize,
        issues: *mut u8,
        issues_length: usize,
        tables: *mut u8,
        tables_length: usize,
        catalog: &mut [u16; CATALOG],
        keys: &mut [u64; KEYS],
        marks: *mut u8,
        marks_length: usize,
        design: *mut u32,
        design_length: usize,
        held: *mut u32,
        held_length: usize,
        numbers: &mut [u64; NUMBERS],
        count: &mut u8,
        place: &mut usize,
        after: &mut usize,
        more: &mut u8,
    ) -> u8;

    /// Takes the step at place `at` on whatever is lent: causes 7 and 12 first. A refusal,
    /// whatever its cause, leaves everything as it was, the catalog's arrays included.
    /// Without one they have the catalog of the rows, whatever stood there before.
    ///
    /// # Safety
    ///
    /// What every call here asks.
    pub fn wurzsige_parts_step(
        script: *const u8,
        script_length: usize,
        at: usize,
        cells: *mut u32,
        cells_length: usize,
        issues: *mut u8,
        issues_length: usize,
        tables: *mut u8,
        tables_length: usize,
        catalog: &mut [u16; CATALOG],
        keys: &mut [u64; KEYS],
        marks: *mut u8,
        marks_length: usize,
        design: *const u32,
        design_length: usize,
        held: *mut u32,
        held_length: usize,
        words: *mut u32,
        words_length: usize,
        text: *mut u8,
        text_length: usize,
        numbers: &mut [u64; NUMBERS],
        count: &mut u8,
        place: &mut usize,
        after: &mut usize,
        more: &mut u8,
    ) -> u8;

    /// The same without the tests for causes 7 and 12.
    ///
    /// # Safety
    ///
    /// Beside what every call here asks: the parts are a desk. [`wurzsige_parts_open`] has
    /// accepted a design there, or [`wurzsige_parts_step`] has taken a step there that
    /// wasn't refused, and since then these functions alone have written them.
    pub fn wurzsige_parts_step_trusted(
        script: *const u8,
        script_length: usize,
        at: usize,
        cells: *mut u32,
        cells_length: usize,
        issues: *mut u8,
        issues_length: usize,
        tables: *mut u8,
        tables_length: usize,
        catalog: &mut [u16; CATALOG],
        keys: &mut [u64; KEYS],
        marks: *mut u8,
        marks_length: usize,
        design: *const u32,
        design_length: usize,
        held: &mut [u32; HELD_WORDS],
        words: *mut u32,
        words_length: usize,
        text: *mut u8,
        text_length: usize,
        counts: &mut [u64; WORKING],
        places: &mut [u16; WORKING],
        numbers: &mut [u64; NUMBERS],
        count: &mut u8,
        place: &mut usize,
        after: &mut usize,
        more: &mut u8,
    ) -> u8;

    /// Takes all steps from place `at` on, until the script ends or a step stops.
    ///
    /// # Safety
    ///
    /// As for [`wurzsige_parts_step_trusted`].
    pub fn wurzsige_parts_run_trusted(
        script: *const u8,
        script_length: usize,
        at: usize,
        cells: *mut u32,
        cells_length: usize,
        issues: *mut u8,
        issues_length: usize,
        tables: *mut u8,
        tables_length: usize,
        catalog: &mut [u16; CATALOG],
        keys: &mut [u64; KEYS],
        marks: *mut u8,
        marks_length: usize,
        design: *const u32,
        design_length: usize,
        held: &mut [u32; HELD_WORDS],
        words: *mut u32,
        words_length: usize,
        text: *mut u8,
        text_length: usize,
        counts: &mut [u64; WORKING],
        places: &mut [u16; WORKING],
    );

    /// Writes the design with its rows as a script: 0, or a cause, which leaves `out` and
    /// `written` as they were.
    ///
    /// # Safety
    ///
    /// What every call here asks.
    pub fn wurzsige_parts_write(
        cells: *const u32,
        cells_length: usize,
        issues: *const u8,
        issues_length: usize,
        tables: *const u8,
        tables_length: usize,
        marks: *const u8,
        marks_length: usize,
        design: *const u32,
        design_length: usize,
        held: *const u32,
        held_length: usize,
        out: *mut u8,
        out_length: usize,
        written: &mut usize,
    ) -> u8;

    /// Tells how many bytes the written design has, and how many words and bytes of
    /// text the step at place `at` would write: 0, or a cause, which leaves `sizes` as it
    /// was.
    ///
    /// # Safety
    ///
    /// What every call here asks.
    pub fn wurzsige_parts_sizes(
        script: *const u8,
        script_length: usize,
        at: usize,
        cells: *const u32,
        cells_length: usize,
        issues: *const u8,
        issues_length: usize,
        tables: *const u8,
        tables_length: usize,
        marks: *const u8,
        marks_length: usize,
        design: *const u32,
        design_length: usize,
        held: *const u32,
        held_length: usize,
        sizes: &mut [u64; 3],
    ) -> u8;

    /// Tells what must be fetched next for a desk whose rows are a slice of a larger
    /// database: 0 for nothing, 1 for the fetch that is written into `fetch`, or a cause,
    /// 7 and 12 for the memory, then 7 for fewer than five words for each of the `count`
    /// fetches, then 5 for words that are no fetch or don't rise. With 0 and with a cause
    /// `fetch` is as it was.
    ///
    /// # Safety
    ///
    /// What every call here asks.
    pub fn wurzsige_parts_missing(
        cells: *const u32,
        cells_length: usize,
        issues: *const u8,
        issues_length: usize,
        tables: *const u8,
        tables_length: usize,
        marks: *const u8,
        marks_length: usize,
        design: *const u32,
        design_length: usize,
        held: *const u32,
        held_length: usize,
        fetches: *const u32,
        fetches_length: usize,
        count: usize,
        fetch: &mut [u32; FETCH_WORDS],
    ) -> u8;

    /// The same without the tests of the memory: 0, 1, or 7 or 5 for the fetches.
    ///
    /// # Safety
    ///
    /// What every call here asks, and that the memory is a desk, with its catalog.
    pub fn wurzsige_parts_missing_trusted(
        cells: *const u32,
        cells_length: usize,
        issues: *const u8,
        issues_length: usize,
        tables: *const u8,
        tables_length: usize,
        catalog: &[u16; CATALOG],
        keys: &[u64; KEYS],
        marks: *const u8,
        marks_length: usize,
        design: *const u32,
        design_length: usize,
        held: &[u32; HELD_WORDS],
        fetches: *const u32,
        fetches_length: usize,
        count: usize,
        fetch: &mut [u32; FETCH_WORDS],
    ) -> u8;

    /// Tells what a design decides of each of its columns: 0, or 7 or 12, which leave
    /// `verdicts` as it was.
    ///
    /// # Safety
    ///
    /// What every call here asks.
    pub fn wurzsige_parts_verdicts(
        design: *const u32,
        design_length: usize,
        verdicts: &mut [u32; VERDICT_WORDS],
    ) -> u8;
}
