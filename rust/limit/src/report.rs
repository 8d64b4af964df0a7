//! The desk program's report.

use std::io::{self, Write};

use crate::design::number;
use crate::desk::{Answer, Desk};
use crate::ROWS;

/// Once so many bytes are ready, they are written.
const FULL: usize = 65_536;

/// The digits of every row number from the front, and their count.
const DIGITS: [[u8; 4]; ROWS] = digits();

const fn digits() -> [[u8; 4]; ROWS] {
    let mut table = [[0; 4]; ROWS];
    let mut row = 0;
    while row < ROWS {
        let [hundreds, tens, ones] = [row / 100, row / 10 % 10, row % 10];
        let [hundreds, tens, ones] = [b'0' + hundreds as u8, b'0' + tens as u8, b'0' + ones as u8];
        table[row] = match row {
            0..10 => [ones, 0, 0, 1],
            10..100 => [tens, ones, 0, 2],
            _ => [hundreds, tens, ones, 3],
        };
        row += 1;
    }
    table
}

/// The report on a script.
pub fn report(script: &[u8]) -> Vec<u8> {
    let mut report = Vec::with_capacity(FULL);
    let written = write_report(script, &mut report);
    written.unwrap_or_else(|error| unreachable!("memory can be written: {error}"));
    report
}

/// Writes the report on a script.
pub fn write_report(script: &[u8], output: &mut impl Write) -> io::Result<()> {
    let mut text = Vec::with_capacity(2 * FULL);
    match Desk::open(script) {
        Err(refusal) => {
            text.extend_from_slice(b"refused ");
            put_numbers(&mut text, &[u64::from(refusal.cause), refusal.place as u64]);
        }
        Ok((mut desk, place)) => {
            let design = desk.design();
            text.extend_from_slice(b"design ");
            let counts = [
                design.tables,
                design.constraints,
                design.fillings,
                design.rows,
            ];
            put_numbers(&mut text, &counts.map(|count| count as u64));
            write_operations(&mut desk, script, place, &mut text, output)?;
        }
    }
    output.write_all(&text)
}

/// Puts the report on the commands from a place on; writes it whenever enough
/// is ready.
fn write_operations(
    desk: &mut Desk,
    script: &[u8],
    mut place: usize,
    text: &mut Vec<u8>,
    output: &mut impl Write,
) -> io::Result<()> {
    let mut number = 0;
    while place < script.len() {
        let (answer, width) = desk.step(&script[place..]);
        put_number(text, number);
        text.push(b' ');
        put_answer(text, answer, place as u64);
        if let Answer::Reason(_) = answer {
            text.extend_from_slice(desk.text());
            text.push(b'\n');
        }
        if let Answer::Lists(count) = answer {
            // A QUERY's number of joins is its eighth byte.
            let positions = usize::from(script[place + 7]) + 1;
            put_lists(text, &desk.words()[..count * positions], positions);
        }
        if text.len() > FULL {
            output.write_all(text)?;
            text.clear();
        }
        if width == 0 {
            break;
        }
        number += 1;
        place += width;
    }
    Ok(())
}

fn put_answer(text: &mut Vec<u8>, answer: Answer, place: u64) {
    let (word, numbers): (&[u8], &[u64]) = match answer {
        Answer::Loaded { rows, rounds } => (b"loaded ", &[rows as u64, rounds as u64]),
        Answer::Held => (b"held", &[]),
        Answer::NoCandidate => (b"no candidate", &[]),
        Answer::Dropped(rows) => (b"dropped ", &[rows as u64]),
        Answer::Ground { ground, rows } => (b"ground ", &[u64::from(ground), rows as u64]),
        Answer::Sent => (b"sent", &[]),
        Answer::Lists(count) => (b"answer ", &[count as u64]),
        Answer::Even => (b"even", &[]),
        Answer::Uneven { i, j } => (b"uneven ", &[u64::from(i), u64::from(j)]),
        Answer::Total(total) => (b"total ", &[total]),
        Answer::Desk(desk) => (b"desk ", &[u64::from(desk)]),
        Answer::Rows { came, went } => (b"rows ", &[came as u64, went as u64]),
        // Its text follows.
        Answer::Reason(_) => return,
        Answer::Absent => (b"absent", &[]),
        Answer::Open => (b"open", &[]),
        Answer::Opener { filling, value } => {
            let (number, issue) = (u64::from(number(value)), value & 0xff);
            (b"", &[u64::from(filling), number, issue])
        }
        Answer::NoOpener => (b"none", &[]),
        Answer::Knot(knot) => {
            text.extend_from_slice(b"knot ");
            let numbers: Vec<u64> = (0..16).filter(|i| knot >> i & 1 == 1).collect();
            return put_numbers(text, &numbers);
        }
        Answer::Refused(cause) => (b"refused ", &[u64::from(cause), place]),
    };
    text.extend_from_slice(word);
    put_numbers(text, numbers);
}

/// Puts numbers with blanks between them, and ends the line.
fn put_numbers(text: &mut Vec<u8>, numbers: &[u64]) {
    for (place, &number) in numbers.iter().enumerate() {
        if place > 0 {
            text.push(b' ');
        }
        put_number(text, number);
    }
    text.push(b'\n');
}

/// Puts a number in decimal.
pub(crate) fn put_number(text: &mut Vec<u8>, mut number: u64) {
    let mut digits = [0; 20];
    let mut start = digits.len();
    loop {
        start -= 1;
        digits[start] = b'0' + (number % 10) as u8;
        number /= 10;
        if number == 0 {
            break;
        }
    }
    text.extend_from_slice(&digits[start..]);
}

/// Puts lists of row numbers, a line for each.
fn put_lists(text: &mut Vec<u8>, words: &[u32], positions: usize) {
    text.reserve(4 * words.len() + 4);
    for list in words.chunks_exact(positions) {
        for &row in list {
            let [one, two, three, count] = DIGITS[row as usize % ROWS];
            // Four bytes at once, and then back to those that count.
            let end = text.len() + usize::from(count) + 1;
            let mut number = [one, two, three, b' '];
            number[usize::from(count) % 4] = b' ';
            text.extend_from_slice(&number);
            text.truncate(end);
        }
        if let Some(last) = text.last_mut() {
            *last = b'\n';
        }
    }
}

#[cfg(test)]
mod tests {
    use super::*;

    #[test]
    fn numbers_are_decimal() {
        for number in [0, 9, 10, 99, 100, 511, 65_536, u64::MAX] {
            let mut text = Vec::new();
            put_number(&mut text, number);
            assert_eq!(text, number.to_string().into_bytes());
        }
    }

    #[test]
    fn lists_stand_on_a_line_each() {
        let mut text = Vec::new();
        put_lists(&mut text, &[0, 10, 511, 9, 99, 100], 3);
        assert_eq!(text, b"0 10 511\n9 99 100\n");
    }
}
