//! The bytes that the header's functions write for each command, held to the notation's.

mod common;

use common::printed_by_c;

/// What is called in C, and the command in the notation.
const CALLS: [(&str, &str); 31] = [
    ("wurzsige_add_table(b, 3, 5)", "table 3 unique 0 2"),
    (
        "wurzsige_add_constraint(b, c12, c34)",
        "constraint 1.2 -> 3.4",
    ),
    (
        "wurzsige_add_filling(b, c12, 1, 4294967295u)",
        "filling 1.2 1..4294967295",
    ),
    (
        "wurzsige_add_row(b, 2, plain, 8)",
        "row 2 1 2 3 4 5 6 7 305419896",
    ),
    ("wurzsige_add_row(b, 2, plain, 2)", "row 2 1 2"),
    ("wurzsige_add_row(b, 2, issued, 3)", "row 2 9 8#255 7"),
    ("wurzsige_add_row(b, 2, issued, 1)", "row 2 9"),
    ("wurzsige_add_row(b, 2, NULL, 0)", "row 2"),
    ("wurzsige_end(b)", "end"),
    (
        "wurzsige_refer(b, 7, wurzsige_plain(305419896))",
        "refer 7 305419896",
    ),
    ("wurzsige_refer(b, 7, wurzsige_issued(3, 2))", "refer 7 3#2"),
    ("wurzsige_drop(b, 7, wurzsige_plain(3))", "drop 7 3"),
    ("wurzsige_drop(b, 7, wurzsige_issued(3, 2))", "drop 7 3#2"),
    ("wurzsige_probe(b, c12, wurzsige_plain(3))", "probe 1.2 = 3"),
    (
        "wurzsige_probe(b, c12, wurzsige_issued(3, 2))",
        "probe 1.2 = 3#2",
    ),
    (
        "wurzsige_query(b, c12, wurzsige_plain(3), NULL, 0)",
        "query 1.2 = 3",
    ),
    (
        "wurzsige_query(b, c12, wurzsige_plain(3), joins, 4)",
        "query 1.2 = 3 join 0 by 5 join 1 by 6 join 2 by 7 join 3 by 8",
    ),
    (
        "wurzsige_query(b, c12, wurzsige_issued(3, 2), joins, 2)",
        "query 1.2 = 3#2 join 0 by 5 join 1 by 6",
    ),
    (
        "wurzsige_total(b, c12, wurzsige_plain(3), joins, 1, 1, 4)",
        "total 1.2 = 3 join 0 by 5 of 1 column 4",
    ),
    (
        "wurzsige_total(b, c12, wurzsige_issued(3, 2), joins, 1, 1, 4)",
        "total 1.2 = 3#2 join 0 by 5 of 1 column 4",
    ),
    ("wurzsige_even(b)", "even"),
    ("wurzsige_knot(b)", "knot"),
    ("wurzsige_name_desk(b, 3)", "desk 3"),
    ("wurzsige_reason(b, 511)", "reason 511"),
    (
        "wurzsige_opener(b, c12, wurzsige_plain(3))",
        "opener 1.2 = 3",
    ),
    (
        "wurzsige_opener(b, c12, wurzsige_issued(3, 2))",
        "opener 1.2 = 3#2",
    ),
    ("wurzsige_hold(b, 1, 2, 305419896)", "hold 1 2..305419896"),
    (
        "wurzsige_release(b, 1, 2, 305419896)",
        "release 1 2..305419896",
    ),
    (
        "wurzsige_put_row(b, 258, 2, issued, 3)",
        "put 258 2 9 8#255 7",
    ),
    ("wurzsige_put_row(b, 258, 2, NULL, 0)", "put 258 2"),
    ("wurzsige_remove_row(b, 258)", "take 258"),
];

/// Calls that write nothing, and one whose joins are too many for more than their count.
const OTHERS: [(&str, &str); 4] = [
    ("wurzsige_add_row(b, 2, plain, 9)", ""),
    ("wurzsige_put_row(b, 2, 2, plain, 9)", ""),
    (
        "wurzsige_query(b, c12, wurzsige_plain(3), joins, 5)",
        "13010203000000050005010602070308",
    ),
    (
        "wurzsige_query(b, c12, wurzsige_plain(3), joins, 1000)",
        "13010203000000ff0005010602070308",
    ),
];

/// A program that prints the bytes of each call on a line.
fn program() -> String {
    let calls = CALLS.iter().chain(&OTHERS);
    let prints = calls.map(|(call, _)| format!("    show(b, {call});\n"));
    let prints: String = prints.collect();
    format!(
        "#include <stdio.h>
#include <string.h>
#include <wurzsige.h>
static void show(const uint8_t *b, size_t n) {{
    size_t i;
    for (i = 0; i < n; i++) printf(\"%02x\", (unsigned)b[i]);
    printf(\"\\n\");
}}
int main(void) {{
    struct wurzsige_column c12 = {{1, 2}}, c34 = {{3, 4}};
    struct wurzsige_value plain[] = {{
        {{1, 0}}, {{2, 0}}, {{3, 0}}, {{4, 0}}, {{5, 0}}, {{6, 0}}, {{7, 0}}, {{305419896, 0}}, {{9, 0}}
    }};
    struct wurzsige_value issued[] = {{{{9, 0}}, {{8, 255}}, {{7, 0}}}};
    struct wurzsige_join joins[] = {{{{0, 5}}, {{1, 6}}, {{2, 7}}, {{3, 8}}}};
    uint8_t b[WURZSIGE_MOST_COMMAND];
{prints}    return 0;
}}
"
    )
}

fn hex(bytes: &[u8]) -> String {
    bytes.iter().map(|byte| format!("{byte:02x}")).collect()
}

#[test]
fn each_command_has_the_notation_s_bytes() {
    let lines = printed_by_c("commands", &program());
    assert_eq!(lines.len(), CALLS.len() + OTHERS.len());
    for ((call, text), line) in CALLS.iter().zip(&lines) {
        let bytes = notation::assemble(&format!("{text}\n")).expect("a command");
        assert_eq!(line, &hex(&bytes), "{call}");
        assert!(bytes.len() <= wurzsige_sys::MOST_COMMAND);
    }
    for ((call, bytes), line) in OTHERS.iter().zip(&lines[CALLS.len()..]) {
        assert_eq!(line, bytes, "{call}");
    }
}

/// Each command byte is written by some call above.
#[test]
fn no_command_is_missing() {
    let bytes = |text: &str| notation::assemble(&format!("{text}\n")).expect("a command");
    let mut firsts: Vec<u8> = CALLS.iter().map(|(_, text)| bytes(text)[0]).collect();
    firsts.sort_unstable();
    firsts.dedup();
    let mut all = notation::COMMAND_BYTES;
    all.sort_unstable();
    assert_eq!(firsts, all);
}
