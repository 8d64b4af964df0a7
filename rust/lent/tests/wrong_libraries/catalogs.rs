//! Libraries that make the catalog where they may not, or don't make it where they have to.

use lent::run::Difference;
use reference::lent::{Told, Word};

use super::wrong::{assert_answers_are_found, find, Call, Given, Wrong};

fn found(catalogs: impl Fn(&Given, &Told) -> bool + 'static) -> Box<Difference> {
    let difference = find(&Wrong {
        catalogs: Box::new(catalogs),
        ..Wrong::default()
    });
    difference.expect("a difference")
}

/// The catalog is made before the cause is looked at.
#[test]
fn a_refused_step_makes_the_catalog_whatever_the_cause() {
    for cause in 1..=13 {
        let difference = found(move |given, told| match told.cause() {
            Some(refused) => given.call == Call::Step && refused == cause,
            None => true,
        });
        assert_eq!(difference.call, "step", "cause {cause}");
        let memory = difference.memory.expect("a difference in memory");
        assert!(memory.starts_with("keys[0] is "), "cause {cause}: {memory}");
    }
}

fn is_refused(given: &Given, told: &Told, cause: u8) -> bool {
    given.call == Call::Step && told.cause() == Some(cause)
}

#[test]
fn a_refused_step_writes_into_an_array() {
    assert_answers_are_found(|given, told, memory| {
        let is_written = is_refused(given, told, 12);
        memory.catalog.rows.lent_mut()[0] ^= u16::from(is_written);
    });
    assert_answers_are_found(|given, told, memory| {
        let is_written = is_refused(given, told, 5);
        memory.catalog.rows.lent_mut()[12_287] ^= u16::from(is_written);
    });
    assert_answers_are_found(|given, told, memory| {
        let is_written = is_refused(given, told, 10);
        memory.catalog.rows.lent_mut()[16_448] ^= u16::from(is_written);
    });
    assert_answers_are_found(|given, told, memory| {
        let is_written = is_refused(given, told, 1);
        memory.catalog.keys.lent_mut()[4_095] ^= u64::from(is_written);
    });
}

#[test]
fn a_refused_opening_makes_the_catalog() {
    let difference = found(|given, told| match told.cause() {
        Some(cause) => given.call == Call::Open && cause == 6,
        None => true,
    });
    assert_eq!(difference.call, "open");
}

/// The arrays are left as they were lent.
#[test]
fn an_answered_step_makes_no_catalog() {
    let difference = found(|given, told| given.call != Call::Step && told.cause().is_none());
    assert_eq!(difference.call, "a trusted step after it");
}

#[test]
fn a_step_with_one_of_the_answers_makes_no_catalog() {
    let answers = (0..Word::Design as u8).filter(|&word| word != Word::Refused as u8);
    for word in answers {
        let difference = found(move |given, told| {
            told.cause().is_none() && !(given.call == Call::Step && told.word == word)
        });
        assert_eq!(difference.call, "a trusted step after it", "word {word}");
    }
}

#[test]
fn an_opening_makes_no_catalog() {
    let difference = found(|given, told| given.call != Call::Open && told.cause().is_none());
    assert_eq!(difference.call, "a trusted step after opening");
}

/// A plain step that is refused leaves the old catalog, and a trusted one meets it.
#[test]
fn a_trusted_step_keeps_the_catalog_of_other_rows() {
    let difference = found(|given, told| {
        told.cause().is_none()
            && !(given.call == Call::TrustedStep && told.word == Word::Changed as u8)
    });
    assert_eq!(difference.call, "a trusted step after a refused one");
}
