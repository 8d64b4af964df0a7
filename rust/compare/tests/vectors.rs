//! The vectors of the proved library (`crates/vectors/stdin`, in a notation that
//! its `src/main.rt` sets out), held to the second implementation: those that a
//! script and the words and the text lent decide. Those on lent memory are passed
//! over. And `stdout` beside it is what is printed if none is wrong.

use std::fs;
use std::path::Path;

use compare::answers::answers;
use reference::{report_lending, report_lending_text};

/// One of the files.
fn file(name: &str) -> String {
    let directory = Path::new(env!("CARGO_MANIFEST_DIR")).join("../../crates/vectors");
    fs::read_to_string(directory.join(name)).expect("a file of the vectors")
}

/// A vector, with the script and the words and bytes of text lent that it is
/// about.
struct Vector<'a> {
    kind: &'a str,
    name: &'a str,
    expected: &'a str,
    /// What stands behind the second bar.
    rest: &'a str,
    script: Vec<u8>,
    words: usize,
    text: usize,
}

/// The vectors of a list.
fn vectors(list: &str) -> Vec<Vector<'_>> {
    let mut vectors = Vec::new();
    let mut script = Vec::new();
    let mut words = 4_096;
    let mut text = 512;
    for line in list.lines() {
        let (kind, rest) = line.split_at_checked(1).unwrap_or_default();
        match kind {
            "=" => script = bytes(rest),
            "+" => {
                let (times, more) = rest.trim_start().split_once(' ').expect("bytes");
                script.extend(bytes(more).repeat(number(times)));
            }
            "w" => words = number(rest),
            "x" => text = number(rest),
            "?" | "a" | "t" | "!" | "r" | "b" => {
                let mut fields = rest[1..].splitn(3, '|');
                let mut field = || fields.next().unwrap_or_default();
                vectors.push(Vector {
                    kind,
                    name: field(),
                    expected: field(),
                    rest: field(),
                    script: script.clone(),
                    words,
                    text,
                });
            }
            _ => {}
        }
    }
    vectors
}

fn number(text: &str) -> usize {
    text.trim().parse().expect("a number")
}

/// The bytes that hexadecimal digits stand for, two each.
fn bytes(text: &str) -> Vec<u8> {
    let digits: Vec<u32> = text.chars().filter_map(|c| c.to_digit(16)).collect();
    assert_eq!(digits.len() % 2, 0, "{text}");
    let pairs = digits.chunks(2);
    pairs.map(|pair| (pair[0] * 16 + pair[1]) as u8).collect()
}

/// The line of a command, or of a refused design.
fn line(vector: &Vector) -> String {
    let report = match vector.words {
        words @ (5 | 6) => report_lending(&vector.script, words),
        _ => report_lending_text(&vector.script, vector.text),
    };
    if report.starts_with("refused ") {
        return report.trim_end().into();
    }
    let (_, operations) = report.split_once('\n').expect("a head");
    let (command, _) = vector.expected.split_once(' ').expect("a line");
    let answers = answers(operations);
    let answer = answers.get(number(command)).expect("a command");
    format!("{command} {}", answer.text)
}

/// The words lent behind a command, 9 each before.
fn words_behind(vector: &Vector) -> String {
    let lent = match vector.words {
        5 | 6 => vector.words,
        _ => 7,
    };
    let mut words = vec!["9"; lent];
    let report = report_lending(&vector.script, lent);
    let (_, operations) = report.split_once('\n').expect("a head");
    let answers = answers(operations);
    for answer in &answers[..=number(vector.rest)] {
        let lists = answer.lists.iter().flat_map(|list| list.split(' '));
        for (word, row) in words.iter_mut().zip(lists) {
            *word = row;
        }
    }
    words.iter().map(|word| format!("{word:0>2} ")).collect()
}

/// The text lent behind a command, full stops before.
fn text_behind(vector: &Vector) -> String {
    let report = report_lending_text(&vector.script, vector.text);
    let (_, operations) = report.split_once('\n').expect("a head");
    let answers = answers(operations);
    let mut text = ".".repeat(vector.text);
    for answer in &answers[..=number(vector.rest)] {
        if answer.text.starts_with("row ") {
            text.replace_range(..answer.text.len(), answer.text);
        }
    }
    text
}

#[test]
fn the_second_implementation_gives_what_is_expected() {
    let list = file("stdin");
    // What the program has room for.
    assert!(list.len() < 65_536 && list.lines().count() < 4_096);
    let mut held = 0;
    for vector in vectors(&list) {
        let got = match vector.kind {
            "?" => line(&vector),
            "a" => words_behind(&vector),
            "t" => text_behind(&vector),
            _ => continue,
        };
        assert_eq!(got, vector.expected, "{}", vector.name);
        held += 1;
    }
    assert!(held > 100, "only {held} vectors");
}

#[test]
fn what_is_printed_has_every_vector_and_none_wrong() {
    let list = file("stdin");
    let vectors = vectors(&list);
    let mut printed = String::new();
    for Vector { name, expected, .. } in &vectors {
        printed += &format!("{name}: expected {expected}, got {expected}\n");
    }
    printed += &format!("{} vectors, 0 wrong\n", vectors.len());
    assert_eq!(file("stdout"), printed);
}
