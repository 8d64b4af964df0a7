//! The list of fetches that the header's function keeps: in rising order, spans that overlap
//! or touch joined, nothing noted that asks for no row, and left alone where it is full.

mod common;

use common::printed_by_c;

/// Fetches, noted one after the other in a list with room for five.
const NOTED: [[u32; 5]; 14] = [
    [1, 0, 0, 10, 19],
    [0, 1, 1, 5, 0],
    [1, 0, 0, 30, 39],
    [1, 0, 0, 20, 29],
    [0, 1, 1, 4, 2],
    [0, 1, 1, 5, 0],
    [1, 0, 0, u32::MAX, u32::MAX],
    [1, 0, 0, 0, 3],
    [0, 0, 0, 0, 0],
    [1, 0, 0, 9, 8],
    [0, 7, 7, 1, 0],
    [1, 0, 1, 5, 6],
    [1, 0, 0, 4, 9],
    [1, 0, 0, 50, u32::MAX - 1],
];

/// Whether each was, and the list at the end.
const PRINTED: [&str; 18] = [
    "1",
    "1",
    "1",
    "1",
    "1",
    "1",
    "1",
    "1",
    "1",
    "1",
    "0",
    "0",
    "1",
    "1",
    "0 1 1 4 2",
    "0 1 1 5 0",
    "1 0 0 1 39",
    "1 0 0 50 4294967295",
];

fn program() -> String {
    let words = NOTED.map(|fetch| fetch.map(|word| format!("{word}u")).join(","));
    let list = words.map(|words| format!("{{{words}}}")).join(", ");
    format!(
        "#include <stdio.h>\n#include <wurzsige.h>\n\
         static const uint32_t noted[][5] = {{{list}}};\n\
         static uint32_t list[5 * 5];\n\
         int main(void) {{ size_t count = 0, i;\n\
         for (i = 0; i < sizeof noted / sizeof *noted; i++)\n\
             printf(\"%d\\n\", wurzsige_note_fetch(list, 5, &count, noted[i]));\n\
         for (i = 0; i < count; i++)\n\
             printf(\"%lu %lu %lu %lu %lu\\n\", (unsigned long)list[5 * i], (unsigned long)list[5 * i + 1],\n\
                 (unsigned long)list[5 * i + 2], (unsigned long)list[5 * i + 3], (unsigned long)list[5 * i + 4]);\n\
         return 0; }}\n"
    )
}

#[test]
fn fetches_are_kept_in_order() {
    assert_eq!(printed_by_c("fetches", &program()), PRINTED);
}
