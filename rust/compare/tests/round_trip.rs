//! The notation on generated scripts and on bytes without any plan.

use compare::generate;
use compare::random::Random;
use notation::{assemble, disassemble};

fn assert_round_trip(script: &[u8]) {
    let text = disassemble(script);
    assert!(assemble(&text).as_deref() == Ok(script), "{text}");
}

#[test]
fn generated_scripts() {
    for number in 0..2_000 {
        assert_round_trip(&generate::script(7, number));
    }
}

#[test]
fn random_bytes() {
    for number in 0..2_000 {
        let mut random = Random::new(7, number);
        let length = random.below(200);
        let bytes: Vec<u8> = (0..length).map(|_| random.byte()).collect();
        assert_round_trip(&bytes);
    }
}
