//! That the header's functions which read a desk look at no place outside what they are
//! about: in memory full of ones, a number that names nothing still gives nothing.

mod common;

use common::printed_by_c;

/// What is called in C with numbers past the last one, and what it gives.
const CALLS: [(&str, u32); 22] = [
    ("wurzsige_count_columns(&desk, 8)", 0),
    ("wurzsige_count_columns(&desk, 255)", 0),
    ("wurzsige_is_unique(&desk, wurzsige_column_at(8, 0))", 0),
    ("wurzsige_is_unique(&desk, wurzsige_column_at(0, 8))", 0),
    ("wurzsige_source_of(&desk, 16).table", 0),
    ("wurzsige_source_of(&desk, 255).column", 0),
    ("wurzsige_target_of(&desk, 16).column", 0),
    ("wurzsige_column_of(&desk, 8).table", 0),
    ("wurzsige_column_of(&desk, 255).column", 0),
    ("wurzsige_candidates_of(&desk, 8).low", 0),
    ("wurzsige_candidates_of(&desk, 255).high", 0),
    ("wurzsige_table_of(&desk, 512)", 255),
    ("wurzsige_value_at(&desk, 512, 0).number", 0),
    ("wurzsige_value_at(&desk, 511, 8).number", 0),
    ("wurzsige_value_at(&desk, 65535, 255).issue", 0),
    ("wurzsige_is_cached(&desk, 512)", 0),
    ("wurzsige_held_at(&desk, 64).desk", 0),
    ("wurzsige_held_at(&desk, (size_t)-1).value.number", 0),
    ("wurzsige_count_ranges(&desk, 4)", 0),
    ("wurzsige_range_at(&desk, 4, 0).low", 0),
    ("wurzsige_range_at(&desk, 3, 8).high", 0),
    ("wurzsige_range_at(&desk, 0, 8).filling", 0),
];

/// The same with the last number that there is: the ones that stand there.
const LAST: [(&str, u32); 10] = [
    ("wurzsige_count_columns(&desk, 7)", u32::MAX),
    ("wurzsige_is_unique(&desk, wurzsige_column_at(7, 7))", 1),
    ("wurzsige_target_of(&desk, 15).column", 255),
    ("wurzsige_candidates_of(&desk, 7).high", u32::MAX),
    ("wurzsige_table_of(&desk, 511)", 255),
    ("wurzsige_value_at(&desk, 511, 7).number", u32::MAX),
    ("wurzsige_value_at(&desk, 511, 7).issue", 255),
    ("wurzsige_held_at(&desk, 63).value.issue", 255),
    ("wurzsige_count_ranges(&desk, 3)", u32::MAX),
    ("wurzsige_range_at(&desk, 3, 7).high", u32::MAX),
];

fn program() -> String {
    let calls = CALLS.iter().chain(&LAST);
    let prints = calls.map(|(call, _)| format!("printf(\"%lu\\n\", (unsigned long){call}); "));
    let prints: String = prints.collect();
    format!(
        "#include <stdio.h>\n#include <string.h>\n#include <wurzsige.h>\n\
         static struct wurzsige desk;\n\
         int main(void) {{ memset(&desk, 255, sizeof desk); {prints} return 0; }}\n"
    )
}

#[test]
fn a_number_that_names_nothing_gives_nothing() {
    let lines = printed_by_c("reading", &program());
    assert_eq!(lines.len(), CALLS.len() + LAST.len());
    for ((call, gives), line) in CALLS.iter().chain(&LAST).zip(lines) {
        assert_eq!(line, gives.to_string(), "{call}");
    }
}
