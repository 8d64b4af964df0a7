//! Texts with damages made by chance from fixed seeds: whatever they hold, they are read to a design or to mistakes that have their places.

mod generate;

use design::{print, read, script, Reading, Severity};
use generate::{design, Random};

const SLEEP: &str = include_str!("../../../examples/sleep.design");

/// What is put into texts: signs, words that mean something, and characters of several bytes.
const PIECES: [&str; 24] = [
    "\"", "`", "{", "}", "\\", "#", "(", ")", ",", ".", "->", "=", "?", "..", " ", "\n", "\n    ",
    "table ", "link ", "show ", " by ", " with ", "é", "→",
];

/// A place between two characters.
fn place(random: &mut Random, text: &str) -> usize {
    let places: Vec<usize> = text
        .char_indices()
        .map(|(place, _)| place)
        .chain([text.len()])
        .collect();
    *random.pick(&places)
}

fn damaged(random: &mut Random, text: &str) -> String {
    let mut text = text.to_string();
    for _ in 0..1 + random.below(4) {
        let (one, other) = (place(random, &text), place(random, &text));
        let (start, end) = (one.min(other), one.max(other).min(one.min(other) + 40));
        let end = (end..=text.len())
            .find(|&end| text.is_char_boundary(end))
            .unwrap_or(text.len());
        match random.below(4) {
            0 => text.replace_range(start..end, ""),
            1 => text.insert_str(start, random.pick::<&str>(&PIECES)),
            2 => {
                let again = text[start..end].to_string();
                text.insert_str(start, &again);
            }
            _ => text.replace_range(start..end, random.pick::<&str>(&PIECES)),
        }
    }
    text
}

fn assert_whole(text: &str, reading: &Reading) {
    for problem in &reading.problems {
        for label in problem.also.iter().chain([&problem.at]) {
            assert!(
                text.get(label.span.clone()).is_some(),
                "{problem:?}\n{text}"
            );
        }
        assert!(
            !problem.message.is_empty() && !problem.message.contains('\n'),
            "{problem:?}"
        );
    }
    let refused = reading
        .problems
        .iter()
        .any(|problem| problem.code.severity() == Severity::Error);
    assert_eq!(reading.design.is_none(), refused, "{text}");
    if let Some(design) = &reading.design {
        assert_eq!(read(&print(design)).design.as_ref(), Some(design), "{text}");
        assert!(script(design).ends_with(&[5]));
    }
}

#[test]
fn damaged_texts() {
    let (mut accepted, mut refused) = (0, 0);
    for seed in 0..6_000 {
        let mut random = Random::new(seed);
        let text = match seed % 2 {
            0 => SLEEP.to_string(),
            _ => print(&design(&mut random)),
        };
        let text = damaged(&mut random, &text);
        let reading = read(&text);
        assert_whole(&text, &reading);
        match reading.design {
            Some(_) => accepted += 1,
            None => refused += 1,
        }
    }
    assert!(accepted > 200 && refused > 3_000, "{accepted} {refused}");
}
