//! What the assembler says about texts it can't read, and where.

use notation::assemble;

fn error(text: &str) -> String {
    match assemble(text) {
        Ok(bytes) => panic!("{text} gives {bytes:?}"),
        Err(error) => error.to_string(),
    }
}

#[test]
fn errors_name_line_and_column() {
    let text = "table 2 # first\n\nend\n   refer 0 x\n";
    assert_eq!(
        error(text),
        "line 4, column 12: expected a value, found `x`"
    );
}

#[test]
fn columns_count_characters() {
    assert_eq!(error("end é"), "line 1, column 5: `é` has no meaning here");
    assert_eq!(error("é"), "line 1, column 1: `é` has no meaning here");
}

#[test]
fn messages() {
    let cases = [
        ("tables 2", 1, "`tables` is no command"),
        ("- 2", 1, "`-` is no command"),
        (
            "table",
            6,
            "expected a column count, found the end of the line",
        ),
        ("table 256", 7, "a column count is at most 255, not 256"),
        (
            "table 2 unique",
            15,
            "expected a unique column's number, found the end of the line",
        ),
        (
            "table 2 unique 8",
            16,
            "a unique column's number is at most 7, not 8",
        ),
        ("table 2 unique 1 0x1", 18, "column 0x1 is named twice"),
        ("table 2 0", 9, "expected the end of the line, found `0`"),
        ("constraint 0.0 1.1", 16, "expected `->`, found `1`"),
        ("constraint 0 -> 1.1", 14, "expected `.`, found `->`"),
        ("filling 0.0 1.9", 14, "expected `..`, found `.`"),
        (
            "filling 0.0 1..4294967296",
            16,
            "the highest candidate is at most 4294967295, not 4294967296",
        ),
        ("row 0 1 0", 9, "a blank cell is written `-`"),
        (
            "row 0 1 2 3 4 5 6 7 8 9",
            23,
            "expected the end of the line, found `9`",
        ),
        ("row 0 0x", 7, "expected a cell, found `0x`"),
        ("row 0 0xg", 7, "expected a cell, found `0xg`"),
        ("end 1", 5, "expected the end of the line, found `1`"),
        ("refer 0", 8, "expected a value, found the end of the line"),
        (
            "refer 0 99999999999999999999999999",
            9,
            "a value is at most 4294967295, not 99999999999999999999999999",
        ),
        ("refer 0 3#256", 11, "an issue is at most 255, not 256"),
        (
            "refer 0 3#1#2",
            12,
            "expected the end of the line, found `#`",
        ),
        ("refer 0#1 3", 8, "expected a value, found `#`"),
        ("row 0 0#1", 7, "a blank cell is written `-`"),
        ("row 0#1 1", 6, "expected a cell, found `#`"),
        ("probe 0.0 3", 11, "expected `=`, found `3`"),
        (
            "query 0.0 = 1 by 0",
            15,
            "expected the end of the line, found `by`",
        ),
        ("query 0.0 = 1 join 0 0", 22, "expected `by`, found `0`"),
        (
            "query 0.0 = 1 join 0 by 0 join 0 by 0 join 0 by 0 join 0 by 0 join 0 by 0",
            63,
            "expected the end of the line, found `join`",
        ),
        ("even 1", 6, "expected the end of the line, found `1`"),
        ("knot 1", 6, "expected the end of the line, found `1`"),
        ("desk 256", 6, "a desk's number is at most 255, not 256"),
        ("desk 1 2", 8, "expected the end of the line, found `2`"),
        ("opener 0.0 3", 12, "expected `=`, found `3`"),
        (
            "reason 65536",
            8,
            "a row's number is at most 65535, not 65536",
        ),
        ("hold 0 1", 9, "expected `..`, found the end of the line"),
        (
            "release 0 1..x",
            14,
            "expected the highest number, found `x`",
        ),
        (
            "put 1",
            6,
            "expected a table's number, found the end of the line",
        ),
        (
            "put 65536 0",
            5,
            "a row's number is at most 65535, not 65536",
        ),
        ("put 1 0 0", 9, "a blank cell is written `-`"),
        (
            "take",
            5,
            "expected a row's number, found the end of the line",
        ),
        ("uneven", 1, "`uneven` is no command"),
        (
            "total 0.0 = 1",
            14,
            "expected `of`, found the end of the line",
        ),
        ("total 0.0 = 1 by 0", 15, "expected `of`, found `by`"),
        ("total 0.0 = 1 of 1.2", 19, "expected `column`, found `.`"),
        (
            "total 0.0 = 1 of 0 column 256",
            27,
            "a column's number is at most 255, not 256",
        ),
        (
            "total 0.0 = 1 of 0 column 1 join 0 by 0",
            29,
            "expected the end of the line, found `join`",
        ),
        ("bytes", 6, "expected a byte, found the end of the line"),
        ("bytes 0x100", 7, "a byte is at most 255, not 0x100"),
        ("probe 0.0 = 1;", 14, "`;` has no meaning here"),
        (
            "row 0 2025-03-04 3",
            11,
            "`-` stands for a blank cell, and has space around it",
        ),
        (
            "row 0 -5 3",
            7,
            "`-` stands for a blank cell, and has space around it",
        ),
        (
            "row 0 5- 3",
            8,
            "`-` stands for a blank cell, and has space around it",
        ),
        (
            "row 0 -- 3",
            7,
            "`-` stands for a blank cell, and has space around it",
        ),
    ];
    for (text, column, message) in cases {
        assert_eq!(error(text), format!("line 1, column {column}: {message}"));
    }
}

/// A row of a table that the text declares has no fewer cells than the table has columns.
#[test]
fn the_number_of_cells() {
    let few =
        "line 2, column 8: table 0 has 3 columns, and the row 1 cell; a blank cell is written `-`";
    assert_eq!(error("table 3\nrow 0 7\n"), few);
    let none =
        "line 2, column 6: table 0 has 1 column, and the row 0 cells; a blank cell is written `-`";
    assert_eq!(error("table 1\nrow 0\n"), none);
    let put =
        "line 3, column 10: table 0 has 2 columns, and the row 1 cell; a blank cell is written `-`";
    assert_eq!(error("table 2\nend\nput 5 0 7\n"), put);
}

#[test]
fn an_error_is_shown_with_its_line() {
    let text = "table 1\r\n\trow 0 é\r\n";
    let error = assemble(text).expect_err("a mistake");
    let shown = "line 2, column 8: `é` has no meaning here\n  \trow 0 é\n  \t      ^";
    assert_eq!(error.shown_in(text), shown);
}
