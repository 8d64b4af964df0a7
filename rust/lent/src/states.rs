//! Sound states: what random runs leave.

use compare::generate;
use compare::random::Random;
use compare::replay::Replay;
use notation::{encode, Command, Pair, Range};
use reference::design::{Design, LONGEST_SCRIPT};
use reference::held::{MOST_RANGES, MOST_VALUES};
use reference::lent::Lent;

/// A large design has more numbers of rows than this.
const LARGE: usize = 100;

/// The most commands of a run, on a small and on a large design: the second implementation
/// looks at all pairs of rows.
const COMMANDS: usize = 40;
const COMMANDS_IF_LARGE: usize = 8;

/// In how many of a hundred cases a desk is filled up at the end of a run.
const FILLED: usize = 12;

/// A state that a script leaves, up to a place behind its design.
#[derive(Clone, Debug)]
pub struct Sound {
    /// The script.
    pub script: Vec<u8>,
    /// Where its operations begin.
    pub operations: usize,
    /// The place that the run has reached.
    pub place: usize,
    /// The state, in buffers that just suffice.
    pub lent: Lent,
}

/// Any script of the comparison of desks.
pub fn any_script(random: &mut Random) -> Vec<u8> {
    let [seed, number] = [(); 2].map(|()| random.below(usize::MAX) as u64);
    generate::script(seed, number)
}

/// The state that some commands of a random script leave.
pub fn sound(random: &mut Random) -> Sound {
    loop {
        let script = any_script(random);
        if let Some(sound) = run(random, script) {
            return sound;
        }
    }
}

/// Runs a script to a random place, if its design is accepted.
fn run(random: &mut Random, mut script: Vec<u8>) -> Option<Sound> {
    let (operations, mut reached) = any_place(random, &script)?;
    if random.percent(FILLED) {
        let commands = filling_up(random, Replay::new(&script)?.design());
        let behind = script.split_off(reached);
        script = [script, commands.clone(), behind].concat();
        script.truncate(LONGEST_SCRIPT);
        reached += commands.len();
    }
    let mut replay = Replay::new(&script)?;
    while replay.place() < reached && replay.perform().is_some() {}
    let place = replay.place();
    let mut lent = Lent::zeros();
    lent.keep(replay.desk());
    Some(Sound {
        script,
        operations,
        place,
        lent,
    })
}

/// Where a script's operations begin, and the place behind some of them.
fn any_place(random: &mut Random, script: &[u8]) -> Option<(usize, usize)> {
    let mut replay = Replay::new(script)?;
    let is_large = replay.design().rows.len() > LARGE;
    let most = if is_large {
        COMMANDS_IF_LARGE
    } else {
        COMMANDS
    };
    let operations = replay.place();
    for _ in 0..random.below(most + 1) {
        replay.skip();
    }
    Some((operations, replay.place()))
}

/// Commands that hold as many values of a filling as a desk can, or as many ranges, if the
/// filling has so many candidates.
fn filling_up(random: &mut Random, design: &Design) -> Vec<u8> {
    let filling = random.below(design.fillings.len().max(1));
    let low = design
        .fillings
        .get(filling)
        .map_or(1, |filling| filling.low);
    let filling = filling as u8;
    let commands: Vec<Command> = if random.percent(50) {
        let values = (0..MOST_VALUES as u32).map(|number| low.saturating_add(number).into());
        values
            .map(|value| Command::Refer(Pair { filling, value }))
            .collect()
    } else {
        let lows = (0..MOST_RANGES as u32).map(|number| low.saturating_add(2 * number));
        lows.map(|low| {
            Command::Hold(Range {
                filling,
                low,
                high: low,
            })
        })
        .collect()
    };
    encode(&commands)
}

#[cfg(test)]
mod tests {
    use super::*;

    #[test]
    fn what_a_run_leaves_is_lawful() {
        for number in 0..500 {
            let sound = sound(&mut Random::new(1, number));
            let desk = sound.lent.desk();
            let flaw = desk.err().map(|flaw| flaw.name());
            assert_eq!(flaw, None, "state {number}");
        }
    }

    #[test]
    fn runs_leave_states_of_many_kinds() {
        let states: Vec<Sound> = (0..500)
            .map(|number| sound(&mut Random::new(1, number)))
            .collect();
        let count = |test: fn(&Sound) -> bool| states.iter().filter(|state| test(state)).count();
        assert!(count(|state| state.lent.marks.contains(&1)) > 150);
        assert!(count(|state| state.lent.held[1] > 0) > 200);
        assert!(count(|state| state.lent.held[258] > 0) > 20);
        assert!(count(|state| state.lent.issues.iter().any(|&issue| issue > 0)) > 50);
        assert!(count(|state| state.lent.tables[LARGE] < 8) > 3);
    }
}
