//! A case: a lent state, what was changed in it, and what is called on it.

use compare::random::Random;
use notation::disassemble;
use reference::design::LONGEST_SCRIPT;
use reference::lent::Flaw;

use crate::change::{change, Changed};
use crate::memory::Memory;
use crate::states::{any_script, sound, Sound};
use crate::steps::Step;

/// What is called on a lent state, each call on the state as it is.
#[derive(Clone, Debug)]
pub struct Case {
    /// The sound state.
    pub sound: Sound,
    /// What was changed in it.
    pub changed: Changed,
    /// The state's memory.
    pub memory: Memory,
    /// What is wrong with it.
    pub flaw: Option<Flaw>,
    /// The script that is opened in it.
    pub opening: Vec<u8>,
    /// Whether all steps of the opened script are then taken in one call.
    pub runs: bool,
    /// The step that is taken on it.
    pub step: Step,
    /// The steps after that one: a trusted one, a plain one and a trusted one.
    pub further: [Step; 3],
    /// How much is lent for the answer words, the text and the written design.
    pub lending: [Lending; 3],
    /// The byte that all else is filled with.
    pub byte: u8,
}

/// How much is lent for something.
#[derive(Clone, Copy, Debug, PartialEq, Eq)]
pub enum Lending {
    /// More than enough.
    Ample,
    /// Exactly enough.
    Enough,
    /// One too few.
    OneShort,
    /// Nothing.
    Nothing,
}

impl Lending {
    fn random(random: &mut Random) -> Lending {
        use Lending::{Ample, Enough, Nothing, OneShort};
        *random.pick(&[Ample, Ample, Enough, Enough, OneShort, OneShort, Nothing])
    }

    /// The length, if so much is needed.
    pub fn length(self, needed: usize) -> usize {
        match self {
            Lending::Ample => needed + 40,
            Lending::Enough => needed,
            Lending::OneShort => needed.saturating_sub(1),
            Lending::Nothing => 0,
        }
    }
}

impl Case {
    /// The case with the given number among those of a seed.
    pub fn new(seed: u64, number: u64) -> Case {
        let mut random = Random::new(seed, number);
        let sound = sound(&mut random);
        let changed = change(&mut random, &sound.lent);
        Case::of(&mut random, sound, changed)
    }

    /// A changed state with any calls.
    pub fn of(random: &mut Random, sound: Sound, changed: Changed) -> Case {
        let byte = *random.pick(&[0, 1, 0x5a, 0xff]);
        Case {
            memory: Memory::new(&changed.lent, byte),
            flaw: changed.lent.desk().err(),
            opening: opening(random, &sound),
            runs: random.percent(40),
            step: Step::random(random, &sound),
            further: [(); 3].map(|()| Step::random(random, &sound)),
            lending: [(); 3].map(|()| Lending::random(random)),
            byte,
            sound,
            changed,
        }
    }
}

/// The state's own script, any other, or one that is about as long as it may be.
fn opening(random: &mut Random, sound: &Sound) -> Vec<u8> {
    let mut script = match random.below(3) {
        0 => sound.script.clone(),
        _ => any_script(random),
    };
    if random.percent(2) {
        script.resize(LONGEST_SCRIPT + random.below(2), 0);
    }
    script
}

impl std::fmt::Display for Case {
    fn fmt(&self, out: &mut std::fmt::Formatter<'_>) -> std::fmt::Result {
        let Sound { script, place, .. } = &self.sound;
        writeln!(out, "the state that these {place} bytes leave:")?;
        write!(out, "{}", disassemble(&script[..*place]))?;
        writeln!(out, "change: {}", self.changed.what)?;
        let flaw = self.flaw.map_or("none", Flaw::name);
        writeln!(out, "flaw: {flaw}")
    }
}
