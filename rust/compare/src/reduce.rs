//! Makes a script smaller while something stays true of it.

use notation::{split, Piece};

/// A small script that still passes the test, as `script` does: without whole
/// commands, then without single bytes, then with 0 for what is left, and all
/// over again as long as that helps.
pub fn reduce(script: &[u8], mut passes: impl FnMut(&[u8]) -> bool) -> Vec<u8> {
    let mut script = script.to_vec();
    loop {
        let pieces = shorten(split(&script), |pieces| passes(&join(pieces)));
        let bytes = shorten(join(&pieces), &mut passes);
        let smaller = clear(bytes, &mut passes);
        if smaller == script {
            return script;
        }
        script = smaller;
    }
}

fn join(pieces: &[Piece]) -> Vec<u8> {
    pieces.iter().flat_map(Piece::bytes).collect()
}

/// Takes out runs of items, long ones first, as long as the rest passes.
fn shorten<T: Clone>(mut items: Vec<T>, mut passes: impl FnMut(&[T]) -> bool) -> Vec<T> {
    let mut length = items.len();
    while length > 0 {
        items = shorten_by(items, length, &mut passes);
        length /= 2;
    }
    items
}

/// Takes out runs of one length.
fn shorten_by<T: Clone>(
    mut items: Vec<T>,
    length: usize,
    mut passes: impl FnMut(&[T]) -> bool,
) -> Vec<T> {
    let mut start = 0;
    while start < items.len() {
        let end = items.len().min(start + length);
        let rest = [&items[..start], &items[end..]].concat();
        if passes(&rest) {
            items = rest;
        } else {
            start = end;
        }
    }
    items
}

/// Puts 0 in the place of bytes.
fn clear(mut bytes: Vec<u8>, mut passes: impl FnMut(&[u8]) -> bool) -> Vec<u8> {
    for place in 0..bytes.len() {
        let byte = bytes[place];
        bytes[place] = 0;
        if byte != 0 && !passes(&bytes) {
            bytes[place] = byte;
        }
    }
    bytes
}

#[cfg(test)]
mod tests {
    use super::*;
    use notation::assemble;

    #[test]
    fn only_what_the_test_needs_is_left() {
        let items: Vec<u32> = (0..1_000).collect();
        let needed = [3, 500, 501, 999];
        let rest = shorten(items, |rest| needed.iter().all(|item| rest.contains(item)));
        assert_eq!(rest, needed);
    }

    #[test]
    fn commands_go_before_bytes() {
        let text = "table 3 unique 1\nrow 0 1 2 3\nrow 0 4 5 6\nend\nprobe 0.1 = 2\nend\n";
        let script = assemble(text).expect("a right text");
        let reduced = reduce(&script, |script| {
            reference::report(script).contains(" refused 3 ")
        });
        assert_eq!(notation::disassemble(&reduced), "end\nend\n");
    }

    #[test]
    fn bytes_that_do_not_matter_become_zero() {
        let script = [7, 0x13, 9];
        let reduced = reduce(&script, |script| script.len() == 3 && script[1] == 0x13);
        assert_eq!(reduced, [0, 0x13, 0]);
    }
}
