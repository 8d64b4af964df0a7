//! What is stepped on: a script and a place.

use compare::random::Random;
use compare::replay::query_of;
use notation::{split, Piece, COMMAND_BYTES};
use reference::design::LONGEST_SCRIPT;
use reference::script::{read_command, Command};

use crate::states::{any_script, Sound};

/// A step to take.
#[derive(Clone, Debug)]
pub struct Step {
    /// The script.
    pub script: Vec<u8>,
    /// The place.
    pub at: usize,
}

impl Step {
    /// A step on a state: most often the command that comes next in its script, or
    /// another one of it, and now and then something that nobody would step on.
    pub fn random(random: &mut Random, sound: &Sound) -> Step {
        match random.below(100) {
            0..=49 => Step::next(random, sound),
            50..=69 => Step::own(random, sound, |_| true),
            70..=79 => Step::own(random, sound, is_question),
            80..=87 => Step::foreign(random),
            _ => Step::malformed(random, sound),
        }
    }

    /// The command as a piece of a script.
    pub fn piece(&self) -> Option<Piece> {
        let from = self.script.get(self.at..)?;
        let (_, next) = read_command(&self.script, self.at).ok()?;
        split(&from[..next - self.at]).into_iter().next()
    }

    fn next(random: &mut Random, sound: &Sound) -> Step {
        if sound.place >= sound.script.len() {
            return Step::own(random, sound, |_| true);
        }
        Step {
            script: sound.script.clone(),
            at: sound.place,
        }
    }

    /// Any command behind the state's design that passes a test.
    fn own(random: &mut Random, sound: &Sound, test: fn(&Command) -> bool) -> Step {
        let at = command_from(random, &sound.script, sound.operations, test);
        let script = sound.script.clone();
        Step { script, at }
    }

    /// Any command of any script.
    fn foreign(random: &mut Random) -> Step {
        let script = any_script(random);
        let at = command_from(random, &script, 0, |_| true);
        Step { script, at }
    }

    /// Bytes that are no command, or a place where none begins.
    fn malformed(random: &mut Random, sound: &Sound) -> Step {
        let Step { mut script, at } = Step::next(random, sound);
        let length = script.len();
        match random.below(8) {
            0 => {
                let at = *random.pick(&[length, length + 1, length + 500, usize::MAX]);
                Step { script, at }
            }
            1 | 2 => {
                let at = random.below(length + 1);
                Step { script, at }
            }
            3 | 4 => {
                script.truncate(at + random.below(length - at + 1).min(9));
                Step { script, at }
            }
            5 => {
                // Exactly as long as a script may be, or a byte longer.
                script.resize(LONGEST_SCRIPT + random.below(2), 0);
                Step { script, at }
            }
            _ => {
                let mut script: Vec<u8> = (0..random.below(30)).map(|_| random.byte()).collect();
                if random.percent(50) {
                    script.insert(0, *random.pick(&COMMAND_BYTES));
                }
                Step { script, at: 0 }
            }
        }
    }
}

/// Queries, totals and reasons, whose answers take words, text or long sums.
fn is_question(command: &Command) -> bool {
    query_of(command).is_some() || matches!(command, Command::Reason(_))
}

/// The place of a random command from a place on, where one begins, that passes a test; the
/// script's end if there is none.
fn command_from(
    random: &mut Random,
    script: &[u8],
    from: usize,
    test: impl Fn(&Command) -> bool,
) -> usize {
    let mut places = vec![];
    let mut place = from;
    while let Ok((command, next)) = read_command(script, place) {
        if test(&command) {
            places.push(place);
        }
        place = next;
    }
    random.pick_any(&places).copied().unwrap_or(script.len())
}
