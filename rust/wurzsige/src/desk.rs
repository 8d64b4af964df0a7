//! A desk: opening it, its memory, and steps of scripts. [`crate::operations`] has what
//! changes it, and [`crate::questions`] what doesn't.

use alloc::boxed::Box;
use alloc::vec;
use alloc::vec::Vec;
use core::cell::RefCell;
use core::fmt;

use wurzsige_sys::{FETCH_WORDS, MOST_DESIGN, MOST_TEXT, Memory, Sizes};

use crate::answer::Answer;
use crate::answers::{Typed, typed};
use crate::command::{Command, positions_at};
use crate::fault::{Fault, explained};
use crate::refusal::Refusal;
use crate::sound::Sound;

/// Words that a step is lent, as the program `desk` lends them.
pub(crate) const WORDS: usize = 4_096;

/// A review desk's row cache: a design with its backend rows, what is held of it, and the
/// cached rows.
///
/// The word has a second sense. A `Desk` is the whole, and four people may work at it: the
/// desks 0 to 3 of [`Desk::name_desk`], each with places of its own for what it holds. They
/// share the design, the rows and what is cached.
///
/// A desk keeps all of its memory on the heap, in one piece. It can be sent to another
/// thread; a clone is a desk of its own. It can't be shared between threads without a lock
/// (a `Mutex`, since it isn't `Sync`): questions take `&self`, but use its working memory.
///
/// ```
/// use wurzsige::{Builder, Named::Plain, Row};
///
/// let mut builder = Builder::new();
/// let [ward] = builder.table("wards", [Plain("ward")]);
/// let wards = builder.filling(ward, 1..=99);
/// builder.row(Row::new(0, [3]));
///
/// let mut desk = builder.open()?;
/// desk.refer(wards, 3)?;
/// assert_eq!(desk.cached().collect::<Vec<_>>(), [0]);
/// # Ok::<(), Box<dyn std::error::Error>>(())
/// ```
pub struct Desk {
    inner: RefCell<Inner>,
    operations_at: usize,
}

/// What steps write. No reference to it ever leaves a method, so that it is never borrowed
/// where one begins.
struct Inner {
    sound: Sound,
    room: Room,
}

/// What is lent for answers. It is made when it is first needed.
#[derive(Default)]
struct Room {
    words: Vec<u32>,
    text: Vec<u8>,
}

impl Room {
    fn words(&mut self) -> &mut [u32] {
        self.words.resize(WORDS, 0);
        &mut self.words
    }

    fn text(&mut self) -> &mut [u8] {
        self.text.resize(MOST_TEXT, 0);
        &mut self.text
    }
}

/// A step that was taken.
///
/// ```
/// use wurzsige::{Answer, Desk};
///
/// let script = [0x01, 1, 0, 0x05, 0x14];
/// let mut desk = Desk::open(&script)?;
/// let step = desk.step(&script, desk.operations_at());
/// assert_eq!((step.answer, step.next, step.more), (Answer::Even, 5, true));
/// # Ok::<(), wurzsige::Refusal>(())
/// ```
#[derive(Clone, Debug, PartialEq, Eq)]
#[non_exhaustive]
pub struct Step {
    /// What the command was answered.
    pub answer: Answer,
    /// The place after the command; after a refusal that stops, the place that was
    /// given.
    pub next: usize,
    /// Whether reading goes on at `next`. It stops after causes 1 and 2, since nothing
    /// tells where the next command begins, and at an over-long script.
    pub more: bool,
}

impl Desk {
    /// The most words that [`Desk::query`] lends: 2^20, which is 4 MiB.
    ///
    /// ```
    /// assert_eq!(wurzsige::Desk::MOST_WORDS * size_of::<u32>(), 4 << 20);
    /// ```
    pub const MOST_WORDS: usize = 1 << 20;

    /// Opens the design at the start of a script. What stands behind its END is read no
    /// further, except that the whole script may not have over 65,536 bytes.
    /// [`Builder`](crate::Builder) makes such scripts.
    ///
    /// ```
    /// use wurzsige::{Cause, Desk};
    ///
    /// // A table of two columns, of which the first is unique.
    /// let desk = Desk::open(&[0x01, 2, 1, 0x05])?;
    /// assert!(desk.design().tables[0].is_unique(0));
    /// assert_eq!(Desk::open(&[]).unwrap_err().cause, Cause::TooFewBytes);
    /// # Ok::<(), wurzsige::Refusal>(())
    /// ```
    pub fn open(script: &[u8]) -> Result<Desk, Refusal> {
        let (sound, operations_at) = Sound::open(script)?;
        Ok(Desk::of(sound, operations_at))
    }

    /// Takes memory that may hold anything. It is a desk, or refused with
    /// [`Cause::Unlawful`](crate::Cause::Unlawful): the test looks at every row and loads
    /// everything held.
    ///
    /// ```
    /// use wurzsige::{Cause, Desk};
    ///
    /// let desk = Desk::open(&[0x01, 2, 0, 0x05])?;
    /// let mut memory = desk.into_memory();
    /// memory.design_mut()[3] = 200; // table 0 is to have 200 columns
    /// assert_eq!(Desk::from_memory(memory).unwrap_err().cause, Cause::Unlawful);
    /// # Ok::<(), wurzsige::Refusal>(())
    /// ```
    pub fn from_memory(memory: Box<Memory>) -> Result<Desk, Refusal> {
        Ok(Desk::of(Sound::tested(memory)?, 0))
    }

    /// A copy of the desk's memory.
    ///
    /// ```
    /// use wurzsige::Desk;
    ///
    /// let desk = Desk::open(&[0x01, 2, 0, 0x05])?;
    /// assert_eq!(desk.to_memory().design()[..4], [1, 0, 0, 2]);
    /// # Ok::<(), wurzsige::Refusal>(())
    /// ```
    pub fn to_memory(&self) -> Box<Memory> {
        self.look(Memory::boxed_copy)
    }

    /// The desk's memory, to be kept or lent elsewhere.
    ///
    /// ```
    /// use wurzsige::Desk;
    ///
    /// let desk = Desk::open(&[0x01, 2, 0, 0x05])?;
    /// let again = Desk::from_memory(desk.into_memory())?;
    /// assert_eq!(again.counts().tables, 1);
    /// # Ok::<(), wurzsige::Refusal>(())
    /// ```
    pub fn into_memory(self) -> Box<Memory> {
        self.inner.into_inner().sound.into_memory()
    }

    /// The place behind the design's END in the script that was opened, where operations
    /// begin; 0 for a desk that was taken from memory.
    ///
    /// ```
    /// use wurzsige::Desk;
    ///
    /// assert_eq!(Desk::open(&[0x01, 2, 0, 0x05, 0x14])?.operations_at(), 4);
    /// # Ok::<(), wurzsige::Refusal>(())
    /// ```
    pub fn operations_at(&self) -> usize {
        self.operations_at
    }

    /// Takes the step at a place of a script: the command that begins there. 4,096 words
    /// and 16,384 bytes of text are lent, as the program `desk` lends them.
    ///
    /// ```
    /// use wurzsige::{Answer, Builder, Desk, Named::Plain, Row};
    ///
    /// let mut builder = Builder::new();
    /// let [number, ward] = builder.table("subjects", [Plain("number"), Plain("ward")]);
    /// builder.filling(ward, 1..=9);
    /// builder.row(Row::new(0, [7, 3]));
    /// let mut script = builder.script();
    /// script.extend([0x10, 0, 3, 0, 0, 0]); // refer the value 3 of filling 0
    /// script.extend([0x12, 0, 1, 3, 0, 0, 0]); // probe column 0.1 for 3
    ///
    /// let mut desk = Desk::open(&script)?;
    /// let step = desk.step(&script, desk.operations_at());
    /// assert_eq!(step.answer, Answer::Loaded { rows: 1, rounds: 0 });
    /// let step = desk.step(&script, step.next);
    /// assert_eq!(step.answer.to_string(), "ground 1 1");
    /// assert_eq!(step.next, script.len());
    /// # Ok::<(), wurzsige::Refusal>(())
    /// ```
    pub fn step(&mut self, script: &[u8], at: usize) -> Step {
        let Inner { sound, room } = self.inner.get_mut();
        room.words();
        room.text();
        let Room { words, text } = room;
        let told = sound.step(script, at, words, text);
        Step {
            answer: Answer::told(&told, positions_at(script, at), words, text),
            next: told.next,
            more: told.more == 1,
        }
    }

    /// Tells how many bytes the written design has, and how many words and bytes of text
    /// the step at a place of a script would write, however much that is.
    ///
    /// ```
    /// use wurzsige::Desk;
    ///
    /// let desk = Desk::open(&[0x01, 2, 0, 0x05])?;
    /// let sizes = desk.sizes(&[0x14], 0);
    /// assert_eq!((sizes.bytes, sizes.words, sizes.text), (4, 0, 0));
    /// # Ok::<(), wurzsige::Refusal>(())
    /// ```
    pub fn sizes(&self, script: &[u8], at: usize) -> Sizes {
        let sizes = self.look(|memory| memory.sizes(script, at));
        sizes.unwrap_or_else(|cause| unreachable!("a desk is refused for cause {cause}"))
    }

    /// The design with its rows, as a script that reads as it. The rows are numbered
    /// anew there, without gaps; what is held isn't in it.
    ///
    /// ```
    /// use wurzsige::Desk;
    ///
    /// assert_eq!(Desk::open(&[0x01, 2, 0, 0x05, 0x14])?.write(), [0x01, 2, 0, 0x05]);
    /// # Ok::<(), wurzsige::Refusal>(())
    /// ```
    pub fn write(&self) -> Vec<u8> {
        let mut script = vec![0; MOST_DESIGN];
        match self.look(|memory| memory.write(&mut script)) {
            Ok(written) => script.truncate(written),
            Err(cause) => unreachable!("a desk is refused for cause {cause}"),
        }
        script
    }

    fn of(sound: Sound, operations_at: usize) -> Desk {
        let room = Room::default();
        Desk {
            inner: RefCell::new(Inner { sound, room }),
            operations_at,
        }
    }

    /// Looks at the memory.
    pub(crate) fn look<T>(&self, at: impl FnOnce(&Memory) -> T) -> T {
        at(self.inner.borrow().sound.memory())
    }

    /// What must be fetched next, as words.
    pub(crate) fn missing_words(
        &self,
        fetches: &[[u32; FETCH_WORDS]],
    ) -> Result<Option<[u32; FETCH_WORDS]>, u8> {
        self.inner.borrow().sound.missing(fetches)
    }

    /// Carries out a command that writes neither lists nor text. It is for the caller to
    /// see to it that one which changes the desk is given by a `&mut Desk` alone.
    pub(crate) fn answer(&self, command: &Command) -> Answer {
        let Inner { sound, .. } = &mut *self.inner.borrow_mut();
        let told = sound.step(command.bytes(), 0, &mut [], &mut []);
        Answer::told(&told, 1, &[], &[])
    }

    /// The same with the answer of the operation, or its refusal with the operand that is
    /// wrong.
    pub(crate) fn ask<T: Typed>(
        &self,
        command: &Command,
        fault: impl FnOnce(&Desk) -> Option<Fault>,
    ) -> Result<T, Refusal> {
        let answer = typed(self.answer(command));
        answer.map_err(|refusal| explained(refusal, fault(self)))
    }

    /// The same for a command that writes text.
    pub(crate) fn ask_in_words<T: Typed>(
        &self,
        command: &Command,
        fault: impl FnOnce(&Desk) -> Option<Fault>,
    ) -> Result<T, Refusal> {
        let answer = {
            let Inner { sound, room } = &mut *self.inner.borrow_mut();
            let text = room.text();
            let told = sound.step(command.bytes(), 0, &mut [], text);
            typed(Answer::told(&told, 1, &[], text))
        };
        answer.map_err(|refusal| explained(refusal, fault(self)))
    }

    /// Carries out a query that is lent so many words, at most those that are at hand, or
    /// all of the given ones.
    pub(crate) fn list(&mut self, command: &Command, positions: usize, most: usize) -> Answer {
        let Inner { sound, room } = self.inner.get_mut();
        let lent = &mut room.words()[..WORDS.min(most)];
        let told = sound.step(command.bytes(), 0, lent, &mut []);
        Answer::told(&told, positions, lent, &[])
    }

    pub(crate) fn list_in(
        &mut self,
        command: &Command,
        positions: usize,
        words: &mut [u32],
    ) -> Answer {
        let sound = &mut self.inner.get_mut().sound;
        let told = sound.step(command.bytes(), 0, words, &mut []);
        Answer::told(&told, positions, words, &[])
    }
}

impl Clone for Desk {
    fn clone(&self) -> Desk {
        Desk::of(self.inner.borrow().sound.clone(), self.operations_at)
    }
}

impl fmt::Debug for Desk {
    fn fmt(&self, out: &mut fmt::Formatter<'_>) -> fmt::Result {
        out.debug_struct("Desk")
            .field("sound", &self.inner.borrow().sound)
            .field("operations_at", &self.operations_at)
            .finish_non_exhaustive()
    }
}
