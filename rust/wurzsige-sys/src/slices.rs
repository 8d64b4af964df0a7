//! What a slice of a larger database lacks, and what a design decides of its columns.

use crate::cause::OTHER_VERSION;
use crate::memory::{DESIGN_WORDS, Memory};
use crate::parts;
use crate::version::{VERSION, library_version};

crate::constants::constants! { "wurzsige_sys::":
    /// Words of a fetch: 0 for a value or 1 for a span; table; column; then the value's number
    /// and issue, or the span's lowest and highest number.
    FETCH_WORDS: usize = 5;

    /// Words of the verdicts on a design's columns: column c of table t has word 8 t + c.
    VERDICT_WORDS: usize = 64;
}

/// The parts of a verdict's word, which is 0 where there is no column. Above them, times
/// 256, stands the lowest constraint by which a column is once linked.
///
/// ```
/// use wurzsige_sys::{verdict, Memory};
///
/// // A table of one column without a filling: no value of it is ever known to be complete.
/// let mut memory = Memory::boxed();
/// memory.open(&[0x01, 1, 0, 0x05]);
/// let told = memory.verdicts().expect("a design");
/// assert_eq!((told[0] & verdict::NEVER, told[0] & verdict::FETCHES), (verdict::NEVER, 0));
/// ```
pub mod verdict {
    crate::constants::constants! { "wurzsige_sys::verdict::":
        /// A load can be asked for the column's values.
        FETCHES: u32 = 1;
        /// A value is complete once a cached row has it where a constraint to the column starts.
        ONCE_LINKED: u32 = 2;
        /// A value is complete once a cached row has it in the column, which is unique.
        ONCE_UNIQUE: u32 = 4;
        /// Every probe is sent.
        NEVER: u32 = 8;
        /// Every value that a cached row has in the column is complete.
        SEEING: u32 = 16;
    }
}

impl Memory {
    /// What must be fetched next for whatever stands here, of which `fetches` were fetched
    /// whole, in rising order: nothing, a fetch, or a cause, 7 or 12 for the memory and 5
    /// for the fetches.
    ///
    /// ```
    /// use wurzsige_sys::{cause, Memory};
    ///
    /// // A table of one column, of which 1 to 9 can be loaded. 3 is, and no row is there.
    /// let mut memory = Memory::boxed();
    /// memory.open(&[0x01, 1, 0, 0x03, 0, 0, 1, 0, 0, 0, 9, 0, 0, 0, 0x05]);
    /// memory.step(&[0x10, 0, 3, 0, 0, 0], 0, &mut [], &mut []);
    /// assert_eq!(memory.missing(&[]), Ok(Some([0, 0, 0, 3, 0])));
    /// assert_eq!(memory.missing(&[[0, 0, 0, 3, 0]]), Ok(None));
    /// assert_eq!(memory.missing(&[[0, 7, 0, 3, 0]]), Err(cause::WRONG_OPERAND));
    /// ```
    pub fn missing(
        &self,
        fetches: &[[u32; FETCH_WORDS]],
    ) -> Result<Option<[u32; FETCH_WORDS]>, u8> {
        if library_version() != VERSION {
            return Err(OTHER_VERSION);
        }
        let words = fetches.as_flattened();
        let mut fetch = [0; FETCH_WORDS];
        // SAFETY: each pointer goes with its slice's length, and what is written doesn't
        // overlap anything.
        let told = unsafe {
            parts::wurzsige_parts_missing(
                self.cells.as_ptr(),
                self.cells.len(),
                self.issues.as_ptr(),
                self.issues.len(),
                self.tables.as_ptr(),
                self.tables.len(),
                self.marks.as_ptr(),
                self.marks.len(),
                self.design.as_ptr(),
                self.design.len(),
                self.held.as_ptr(),
                self.held.len(),
                words.as_ptr(),
                words.len(),
                fetches.len(),
                &mut fetch,
            )
        };
        missing(told, fetch)
    }

    /// The same without the tests of the memory.
    ///
    /// # Safety
    ///
    /// This is a desk, as [`Memory::step_trusted`] asks.
    ///
    /// ```
    /// use wurzsige_sys::{word, Memory};
    ///
    /// let mut memory = Memory::boxed();
    /// assert_eq!(memory.open(&[0x01, 1, 0, 0x05]).word, word::DESIGN);
    /// // SAFETY: a design was opened there.
    /// assert_eq!(unsafe { memory.missing_trusted(&[]) }, Ok(None));
    /// ```
    pub unsafe fn missing_trusted(
        &self,
        fetches: &[[u32; FETCH_WORDS]],
    ) -> Result<Option<[u32; FETCH_WORDS]>, u8> {
        let words = fetches.as_flattened();
        let mut fetch = [0; FETCH_WORDS];
        // SAFETY: as in `missing`, and it is a desk.
        let told = unsafe {
            parts::wurzsige_parts_missing_trusted(
                self.cells.as_ptr(),
                self.cells.len(),
                self.issues.as_ptr(),
                self.issues.len(),
                self.tables.as_ptr(),
                self.tables.len(),
                &self.catalog,
                &self.keys,
                self.marks.as_ptr(),
                self.marks.len(),
                self.design.as_ptr(),
                self.design.len(),
                &self.held,
                words.as_ptr(),
                words.len(),
                fetches.len(),
                &mut fetch,
            )
        };
        missing(told, fetch)
    }

    /// What the design decides of each of its columns: [`verdicts`] of its words.
    ///
    /// ```
    /// use wurzsige_sys::{verdict, Memory};
    ///
    /// // A table of two columns, of which values of the first can be loaded.
    /// let mut memory = Memory::boxed();
    /// memory.open(&[0x01, 2, 0, 0x03, 0, 0, 1, 0, 0, 0, 9, 0, 0, 0, 0x05]);
    /// let verdicts = memory.verdicts().expect("a design");
    /// assert_eq!(verdicts[..3], [verdict::FETCHES + verdict::SEEING, verdict::NEVER, 0]);
    /// ```
    pub fn verdicts(&self) -> Result<[u32; VERDICT_WORDS], u8> {
        verdicts(&self.design)
    }
}

/// What a design, by its words, decides of each of its columns, in the words of [`verdict`];
/// or cause 12 for words that are no design.
///
/// ```
/// use wurzsige_sys::{verdict, verdicts, DESIGN_WORDS};
///
/// // One table of two columns, which are neither unique nor loaded.
/// let mut design = [0; DESIGN_WORDS];
/// (design[0], design[3]) = (1, 2);
/// let told = verdicts(&design).expect("a design");
/// assert_eq!([told[0] & verdict::NEVER, told[2]], [verdict::NEVER, 0]);
/// design[3] = 9; // columns
/// assert_eq!(verdicts(&design), Err(12));
/// ```
pub fn verdicts(design: &[u32; DESIGN_WORDS]) -> Result<[u32; VERDICT_WORDS], u8> {
    if library_version() != VERSION {
        return Err(OTHER_VERSION);
    }
    let mut verdicts = [0; VERDICT_WORDS];
    // SAFETY: the pointer goes with its slice's length, and what is written doesn't overlap it.
    match unsafe { parts::wurzsige_parts_verdicts(design.as_ptr(), design.len(), &mut verdicts) } {
        0 => Ok(verdicts),
        cause => Err(cause),
    }
}

/// What a call says is missing.
fn missing(told: u8, fetch: [u32; FETCH_WORDS]) -> Result<Option<[u32; FETCH_WORDS]>, u8> {
    match told {
        0 => Ok(None),
        1 => Ok(Some(fetch)),
        cause => Err(cause),
    }
}
