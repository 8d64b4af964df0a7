//! What calls tell.

crate::constants::constants! { "wurzsige_sys::":
    /// Numbers that an answer can have.
    NUMBERS: usize = 16;

    /// Bytes of a script.
    MOST_SCRIPT: usize = 65_536;

    /// Bytes that a written design can have.
    MOST_DESIGN: usize = 21_697;

    /// Bytes of text that always suffice for a reason.
    MOST_TEXT: usize = 16_384;

    /// Bytes of the longest command.
    MOST_COMMAND: usize = 44;
}

/// What a step or an opening tells: C's `struct wurzsige_answer`.
///
/// ```
/// use wurzsige_sys::{cause, word, Memory, Told};
///
/// let told: Told = Memory::boxed().open(&[0x01, 2, 0, 0xff]);
/// assert_eq!((told.word, told.numbers[0]), (word::REFUSED, cause::UNKNOWN_COMMAND.into()));
/// assert_eq!((told.place, told.next, told.more), (3, 0, 0));
/// ```
#[repr(C)]
#[derive(Clone, Copy, Debug, Default, PartialEq, Eq)]
#[non_exhaustive]
pub struct Told {
    /// The numbers behind the word, 0 behind the last of them.
    pub numbers: [u64; NUMBERS],
    /// Of a refusal: where the faulty command begins; 0 with any other answer.
    pub place: usize,
    /// The place after the command; after a refusal that stops, the place that was
    /// given: 0 for an opening.
    pub next: usize,
    /// One of [`crate::word`].
    pub word: u8,
    /// How many numbers there are.
    pub count: u8,
    /// 1 if reading goes on at `next`, 0 if it stops: after a refused opening, after causes
    /// 1, 2, 7 and 12, and after 4 for the script's length.
    pub more: u8,
}

/// How much is to be lent: C's `struct wurzsige_room`.
///
/// ```
/// use wurzsige_sys::{Memory, Sizes};
///
/// let mut memory = Memory::boxed();
/// memory.open(&[0x01, 2, 0, 0x05]);
/// let Ok(Sizes { bytes, words, .. }) = memory.sizes(&[0x14], 0) else {
///     panic!("it is a desk");
/// };
/// assert_eq!((bytes, words), (4, 0));
/// ```
#[repr(C)]
#[derive(Clone, Copy, Debug, Default, PartialEq, Eq)]
#[non_exhaustive]
pub struct Sizes {
    /// Bytes that the written design has.
    pub bytes: u64,
    /// Words that the step's lists have; 0 if it answers none.
    pub words: u64,
    /// Bytes that the step's reason has; 0 if it gives none.
    pub text: u64,
}
