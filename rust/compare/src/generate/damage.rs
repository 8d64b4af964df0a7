//! Scripts that nobody meant to write: damaged ones and noise.

use notation::{split, Command, Piece, COMMAND_BYTES};

use crate::random::Random;

/// The script with one to three damages.
pub fn damage(random: &mut Random, mut script: Vec<u8>) -> Vec<u8> {
    for _ in 0..random.within(1..=3) {
        script = match random.below(6) {
            0 => cut_short(random, script),
            1 => change_byte(random, script),
            2 => flip_bit(random, script),
            _ => change_pieces(random, &script),
        };
    }
    script
}

/// A few bytes without a plan, at the head of a script or after an END.
pub fn noise(random: &mut Random) -> Vec<u8> {
    let mut script = Vec::new();
    if random.percent(50) {
        script.extend(Command::End.bytes());
    }
    for _ in 0..random.below(60) {
        script.push(match random.below(10) {
            0..=3 => *random.pick(&COMMAND_BYTES),
            4..=7 => random.below(9) as u8,
            _ => random.byte(),
        });
    }
    script
}

fn cut_short(random: &mut Random, mut script: Vec<u8>) -> Vec<u8> {
    script.truncate(random.below(script.len() + 1));
    script
}

fn change_byte(random: &mut Random, script: Vec<u8>) -> Vec<u8> {
    let byte = random.byte();
    with_byte(random, script, |_| byte)
}

fn flip_bit(random: &mut Random, script: Vec<u8>) -> Vec<u8> {
    let bit = random.below(8);
    with_byte(random, script, |byte| byte ^ 1 << bit)
}

/// The script with another byte at a random place.
fn with_byte(random: &mut Random, mut script: Vec<u8>, change: impl Fn(u8) -> u8) -> Vec<u8> {
    if !script.is_empty() {
        let place = random.below(script.len());
        script[place] = change(script[place]);
    }
    script
}

/// The script with a command taken out, repeated elsewhere or exchanged with
/// another.
fn change_pieces(random: &mut Random, script: &[u8]) -> Vec<u8> {
    let mut pieces = split(script);
    if pieces.is_empty() {
        return Vec::new();
    }
    let (one, other) = (random.below(pieces.len()), random.below(pieces.len()));
    match random.below(3) {
        0 => {
            pieces.remove(one);
        }
        1 => pieces.insert(other, pieces[one].clone()),
        _ => pieces.swap(one, other),
    }
    pieces.iter().flat_map(Piece::bytes).collect()
}
