//! The reports, byte for byte beside the second implementation's.

use compare::desk::Reply;
use compare::generate;
use compare::random::Random;
use compare::run::{Comparison, Side, SECOND_IMPLEMENTATION};

fn assert_same(script: &[u8], name: &str) {
    let limit = Side {
        name: "limit",
        desk: &|script| Ok(Reply::Report(limit::report(script))),
    };
    let comparison = Comparison::of(&[limit, SECOND_IMPLEMENTATION], script.to_vec());
    let comparison = comparison.expect("no process that could fail");
    assert!(!comparison.differs(), "{name}:\n{comparison}");
}

#[test]
fn generated_scripts() {
    for seed in [1, 2] {
        for number in 0..4_000 {
            let script = generate::script(seed, number);
            assert_same(&script, &format!("script {number} of seed {seed}"));
        }
    }
}

/// Values that share rows are loaded and dropped, so that both ways to drop are
/// taken many times.
#[test]
fn loads_and_drops_that_share_rows() {
    for number in 0..300 {
        let mut random = Random::new(3, number);
        assert_same(&sharing(&mut random), &format!("script {number}"));
    }
}

/// Several tables of which each has about twenty values, linked at random, and
/// 400 loads, drops and probes.
fn sharing(random: &mut Random) -> Vec<u8> {
    let (tables, rows) = (random.within(1..=4), random.within(40..=300));
    let values = random.within(3..=120);
    let value = |random: &mut Random| (random.below(values) as u32 + 1).to_le_bytes();
    let table = |random: &mut Random| random.below(tables) as u8;
    let mut script = [0x01, 3, 0].repeat(tables);
    let mut constraints = Vec::new();
    for _ in 0..random.within(1..=6) {
        let mut column = || [table(random), random.below(3) as u8];
        let constraint = [column(), column()].concat();
        if !constraints.contains(&constraint) {
            constraints.push(constraint);
        }
    }
    for constraint in constraints {
        script.push(0x02);
        script.extend(constraint);
    }
    for number in 0..tables as u8 {
        script.extend([0x03, number, 0, 1, 0, 0, 0, 255, 255, 0, 0]);
    }
    for _ in 0..rows {
        script.extend([0x04, table(random)]);
        for _ in 0..3 {
            script.extend(value(random));
        }
        script.extend([0; 20]);
    }
    script.push(0x05);
    for _ in 0..400 {
        let command = *random.pick(&[0x10, 0x10, 0x11, 0x11, 0x11, 0x12]);
        script.extend([command, table(random)]);
        if command == 0x12 {
            script.push(random.below(3) as u8);
        }
        script.extend(value(random));
    }
    script
}
