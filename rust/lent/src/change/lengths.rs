//! Buffers that are too short, or longer than they need to be.

use compare::random::Random;
use reference::lent::Lent;

use super::words::any_word;

/// A change of one buffer.
type Resize = fn(&mut Random, &mut Lent, Length);

/// How a buffer's length changes.
#[derive(Clone, Copy)]
enum Length {
    Less(usize),
    More(usize),
    None,
}

const BUFFERS: [(&str, Resize); 6] = [
    ("cells", |random, lent, length| {
        resize(&mut lent.cells, length, any_word(random));
    }),
    ("issues", |random, lent, length| {
        resize(&mut lent.issues, length, random.byte());
    }),
    ("row tables", |random, lent, length| {
        resize(&mut lent.tables, length, random.byte());
    }),
    ("marks", |random, lent, length| {
        resize(&mut lent.marks, length, random.byte());
    }),
    ("the design", |random, lent, length| {
        resize(&mut lent.design, length, any_word(random));
    }),
    ("what is held", |random, lent, length| {
        resize(&mut lent.held, length, any_word(random));
    }),
];

fn resize<T: Clone>(buffer: &mut Vec<T>, length: Length, item: T) {
    match length {
        Length::Less(less) => buffer.truncate(buffer.len().saturating_sub(less)),
        Length::More(more) => buffer.resize(buffer.len() + more, item),
        Length::None => buffer.clear(),
    }
}

/// One buffer, or two, shorter by a few items, or empty.
pub fn shorten(random: &mut Random, lent: &mut Lent) -> String {
    some_buffers(random, lent, "shorter:", |random| match random.below(6) {
        0 => Length::None,
        1 => Length::Less(random.below(600)),
        _ => Length::Less(random.within(1..=3)),
    })
}

/// One buffer, or two, longer by a few items.
pub fn lengthen(random: &mut Random, lent: &mut Lent) -> String {
    some_buffers(random, lent, "longer:", |random| {
        Length::More(random.within(1..=20))
    })
}

fn some_buffers(
    random: &mut Random,
    lent: &mut Lent,
    what: &str,
    length: impl Fn(&mut Random) -> Length,
) -> String {
    let mut what = what.to_string();
    for _ in 0..random.within(1..=2) {
        let (name, change) = *random.pick(&BUFFERS);
        let length = length(random);
        change(random, lent, length);
        what += " ";
        what += name;
    }
    what
}
