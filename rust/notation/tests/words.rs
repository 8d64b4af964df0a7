//! Each command's words and bytes, both ways, and what else a text may hold.

use notation::{assemble, disassemble, disassemble_with_offsets};

/// A command in its canonical words, and its bytes.
const COMMANDS: [(&str, &[u8]); 40] = [
    ("table 2", &[1, 2, 0]),
    ("table 200 unique 0 3 7", &[1, 200, 0b1000_1001]),
    ("constraint 0.1 -> 2.3", &[2, 0, 1, 2, 3]),
    (
        "filling 4.5 1..4294967295",
        &[3, 4, 5, 1, 0, 0, 0, 255, 255, 255, 255],
    ),
    ("filling 0.0 9..0", &[3, 0, 0, 9, 0, 0, 0, 0, 0, 0, 0]),
    (
        "row 7",
        &[
            4, 7, 0, 0, 0, 0, 0, 0, 0, 0, 0, 0, 0, 0, 0, 0, 0, 0, //
            0, 0, 0, 0, 0, 0, 0, 0, 0, 0, 0, 0, 0, 0, 0, 0,
        ],
    ),
    (
        "row 5 258 - 3",
        &[
            4, 5, 2, 1, 0, 0, 0, 0, 0, 0, 3, 0, 0, 0, 0, 0, 0, 0, //
            0, 0, 0, 0, 0, 0, 0, 0, 0, 0, 0, 0, 0, 0, 0, 0,
        ],
    ),
    (
        "row 5 1 2 3 4 5 6 7 8",
        &[
            4, 5, 1, 0, 0, 0, 2, 0, 0, 0, 3, 0, 0, 0, 4, 0, 0, 0, //
            5, 0, 0, 0, 6, 0, 0, 0, 7, 0, 0, 0, 8, 0, 0, 0,
        ],
    ),
    (
        "row 1 258#9 - 3 -#255",
        &[
            7, 1, 2, 1, 0, 0, 0, 0, 0, 0, 3, 0, 0, 0, 0, 0, 0, 0, //
            0, 0, 0, 0, 0, 0, 0, 0, 0, 0, 0, 0, 0, 0, 0, 0, //
            9, 0, 0, 255, 0, 0, 0, 0,
        ],
    ),
    (
        "row 1 2#0 3",
        &[
            7, 1, 2, 0, 0, 0, 3, 0, 0, 0, 0, 0, 0, 0, 0, 0, 0, 0, //
            0, 0, 0, 0, 0, 0, 0, 0, 0, 0, 0, 0, 0, 0, 0, 0, //
            0, 0, 0, 0, 0, 0, 0, 0,
        ],
    ),
    (
        "row 1 -#0",
        &[
            7, 1, 0, 0, 0, 0, 0, 0, 0, 0, 0, 0, 0, 0, 0, 0, 0, 0, //
            0, 0, 0, 0, 0, 0, 0, 0, 0, 0, 0, 0, 0, 0, 0, 0, //
            0, 0, 0, 0, 0, 0, 0, 0,
        ],
    ),
    ("end", &[5]),
    ("refer 0 3#1", &[0x20, 0, 3, 0, 0, 0, 1]),
    ("refer 0 3#0", &[0x20, 0, 3, 0, 0, 0, 0]),
    ("drop 255 0#255", &[0x21, 255, 0, 0, 0, 0, 255]),
    ("probe 1.2 = 65536#7", &[0x22, 1, 2, 0, 0, 1, 0, 7]),
    (
        "query 0.1 = 3#2",
        &[0x23, 0, 1, 3, 0, 0, 0, 0, 0, 0, 0, 0, 0, 0, 0, 0, 2],
    ),
    (
        "query 0.1 = 3#2 join 0 by 5",
        &[0x23, 0, 1, 3, 0, 0, 0, 1, 0, 5, 0, 0, 0, 0, 0, 0, 2],
    ),
    (
        "total 0.1 = 3#2 of 0 column 1",
        &[0x25, 0, 1, 3, 0, 0, 0, 0, 0, 0, 0, 0, 0, 0, 0, 0, 0, 1, 2],
    ),
    ("refer 0 3", &[0x10, 0, 3, 0, 0, 0]),
    ("drop 255 0", &[0x11, 255, 0, 0, 0, 0]),
    ("probe 1.2 = 65536", &[0x12, 1, 2, 0, 0, 1, 0]),
    (
        "query 0.1 = 3",
        &[0x13, 0, 1, 3, 0, 0, 0, 0, 0, 0, 0, 0, 0, 0, 0, 0],
    ),
    (
        "query 0.1 = 3 join 0 by 0 join 1 by 2 join 0 by 0 join 9 by 8",
        &[0x13, 0, 1, 3, 0, 0, 0, 4, 0, 0, 1, 2, 0, 0, 9, 8],
    ),
    ("even", &[0x14]),
    (
        "total 0.1 = 3 of 0 column 1",
        &[0x15, 0, 1, 3, 0, 0, 0, 0, 0, 0, 0, 0, 0, 0, 0, 0, 0, 1],
    ),
    (
        "total 0.1 = 3 join 0 by 0 join 1 by 2 join 0 by 0 join 9 by 8 of 4 column 7",
        &[0x15, 0, 1, 3, 0, 0, 0, 4, 0, 0, 1, 2, 0, 0, 9, 8, 4, 7],
    ),
    ("knot", &[0x1c]),
    ("desk 0", &[0x17, 0]),
    ("desk 255", &[0x17, 255]),
    ("reason 5", &[0x18, 5, 0]),
    ("reason 65535", &[0x18, 255, 255]),
    ("hold 1 2..3", &[0x1a, 1, 2, 0, 0, 0, 3, 0, 0, 0]),
    (
        "release 255 4294967295..0",
        &[0x1b, 255, 255, 255, 255, 255, 0, 0, 0, 0],
    ),
    (
        "put 511 1 258 - 3",
        &[
            0x1d, 255, 1, 1, 2, 1, 0, 0, 0, 0, 0, 0, 3, 0, 0, 0, 0, 0, 0, 0, //
            0, 0, 0, 0, 0, 0, 0, 0, 0, 0, 0, 0, 0, 0, 0, 0, //
            0, 0, 0, 0, 0, 0, 0, 0,
        ],
    ),
    (
        "put 0 2 -#5 3#1",
        &[
            0x1d, 0, 0, 2, 0, 0, 0, 0, 3, 0, 0, 0, 0, 0, 0, 0, 0, 0, 0, 0, //
            0, 0, 0, 0, 0, 0, 0, 0, 0, 0, 0, 0, 0, 0, 0, 0, //
            5, 1, 0, 0, 0, 0, 0, 0,
        ],
    ),
    ("take 65535", &[0x1e, 255, 255]),
    ("opener 1.2 = 3", &[0x19, 1, 2, 3, 0, 0, 0, 0]),
    ("opener 1.2 = 3#9", &[0x19, 1, 2, 3, 0, 0, 0, 9]),
    ("bytes 0xff 0x01", &[0xff, 0x01]),
];

#[test]
fn words_and_bytes_of_each_command() {
    for (text, bytes) in COMMANDS {
        assert_eq!(assemble(text).as_deref(), Ok(bytes), "{text}");
        assert_eq!(disassemble(bytes), format!("{text}\n"));
    }
}

#[test]
fn a_script_is_its_commands_one_after_another() {
    let texts = COMMANDS.map(|(text, _)| text);
    let bytes = COMMANDS.map(|(_, bytes)| bytes);
    assert_eq!(disassemble(&bytes.concat()), texts.join("\n") + "\n");
    assert_eq!(assemble(&texts.join("\r\n")), Ok(bytes.concat()));
}

#[test]
fn space_and_comments_do_not_matter() {
    let text = "\n # nothing\n\ttable 1   unique 0# a table\n\n  probe 0 . 0=0x1F # 31";
    let bytes = [1, 1, 1, 0x12, 0, 0, 31, 0, 0, 0];
    assert_eq!(assemble(text).as_deref(), Ok(&bytes[..]));
}

/// The sign of an issue stands between two numbers, without space.
#[test]
fn an_issue_is_no_comment() {
    let with_issue = [0x20, 0, 3, 0, 0, 0, 0x1f];
    let without = [0x10, 0, 3, 0, 0, 0];
    for (text, bytes) in [
        ("refer 0 3#0x1F", &with_issue[..]),
        ("refer 0 3#31# a comment", &with_issue),
        ("refer 0 3 #31", &without),
        ("refer 0 3# 31", &without),
        ("refer 0 3#a comment", &without),
        ("refer 0 3#", &without),
    ] {
        assert_eq!(assemble(text).as_deref(), Ok(bytes), "{text}");
    }
}

#[test]
fn queries_without_words_become_bytes() {
    let five_joins = [0x13, 0, 1, 3, 0, 0, 0, 5, 0, 0, 0, 0, 0, 0, 0, 0];
    let used_pair = [0x13, 0, 1, 3, 0, 0, 0, 1, 0, 0, 0, 0, 0, 0, 0, 1];
    for query in [five_joins, used_pair] {
        let text = disassemble(&[&query[..], &[5]].concat());
        assert!(text.starts_with("bytes 0x13 0x00 0x01 "), "{text}");
        assert!(text.ends_with("\nend\n"), "{text}");
        let text = disassemble(&[&[0x15], &query[1..], &[0, 0, 5]].concat());
        assert!(text.starts_with("bytes 0x15 0x00 0x01 "), "{text}");
        assert!(text.ends_with("\nend\n"), "{text}");
        let text = disassemble(&[&[0x23], &query[1..], &[9, 5]].concat());
        assert!(text.starts_with("bytes 0x23 0x00 0x01 "), "{text}");
        assert!(text.ends_with("\nend\n"), "{text}");
    }
}

/// A row of a table that the script declares has a cell for each of its columns, blank or not.
#[test]
fn rows_are_as_wide_as_their_tables() {
    let text = "table 3\ntable 1 unique 0\nrow 0 7 - -\nrow 0 - - -\nrow 1 -\nrow 1 7#2\nrow 1 -#0\nend\nput 4 0 - - 3\n";
    let script = assemble(text).expect("a right text");
    assert_eq!(disassemble(&script), text);
}

/// Where the table can't be known, the cells end with the last that isn't blank: in a table that
/// isn't there, or has no or too many columns, or is declared behind `end`.
#[test]
fn rows_of_unknown_width() {
    for text in [
        "row 0 7\n",
        "table 9\nrow 0 7 - 3\n",
        "table 0\nrow 0 7 - 3\n",
        "table 2\nend\ntable 3\nput 1 1 7\n",
    ] {
        let script = assemble(text).expect("a right text");
        assert_eq!(disassemble(&script), text);
    }
    let script = assemble("bytes 1 3 0\nrow 0 7\n").expect("a right text");
    assert_eq!(disassemble(&script), "table 3\nrow 0 7 - -\n");
}

/// The desk refuses them, so they can be written.
#[test]
fn rows_with_cells_past_their_table() {
    for text in [
        "table 1\nrow 0 7 8\n",
        "table 1\nrow 0 7 -#1\n",
        "table 2\nrow 0 - - 1\n",
    ] {
        let script = assemble(text).expect("a right text");
        assert_eq!(disassemble(&script), text);
    }
}

#[test]
fn offsets_stand_behind_the_commands() {
    let script = assemble("table 2\nrow 0 7 8\nend\nprobe 0.0 = 7\n").expect("a right text");
    let mut cut = script.clone();
    cut.extend([0x1d; 20]);
    let text = disassemble_with_offsets(&cut);
    let lines: Vec<&str> = text.lines().collect();
    assert_eq!(
        lines[..4],
        [
            "table 2  # byte 0",
            "row 0 7 8  # byte 3",
            "end  # byte 37",
            "probe 0.0 = 7  # byte 38",
        ]
    );
    assert!(lines[4].ends_with("0x1d  # byte 45"), "{text}");
    assert_eq!(lines.len(), 6);
    assert_eq!(assemble(&text), Ok(cut));
}

#[test]
fn everything_after_an_unreadable_byte_is_bytes() {
    assert_eq!(disassemble(&[5, 0x24, 5]), "end\nbytes 0x24 0x05\n");
    assert_eq!(disassemble(&[5, 6, 5]), "end\nbytes 0x06 0x05\n");
    assert_eq!(disassemble(&[5, 1, 5]), "end\nbytes 0x01 0x05\n");
}

#[test]
fn long_runs_of_bytes_are_broken_into_lines() {
    let lines = disassemble(&[0; 40])
        .lines()
        .map(str::len)
        .collect::<Vec<_>>();
    assert_eq!(lines, [5 + 16 * 5, 5 + 16 * 5, 5 + 8 * 5]);
}
