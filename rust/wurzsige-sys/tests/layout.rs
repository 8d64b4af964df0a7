//! The structs and constants, held to what the C compiler makes of the header.

mod common;

use std::fs;
use std::mem::{align_of, offset_of, size_of};

use common::{include, printed_by_c};
use wurzsige_sys::{Memory, Sizes, Told, cause, command, verdict, word};

/// What one of the crate's names is, and the C expression that has to be the same.
type Same = (String, usize);

macro_rules! fields {
    ($rust:ty, $c:literal, $($field:ident)*) => {
        vec![
            (format!("sizeof({})", $c), size_of::<$rust>()),
            (format!("_Alignof({})", $c), align_of::<$rust>()),
            $((format!("offsetof({}, {})", $c, stringify!($field)), offset_of!($rust, $field)),)*
        ]
    };
}

macro_rules! constants {
    ($place:path, $prefix:literal: $($name:ident)*) => {{
        use $place as place;
        vec![$((format!("WURZSIGE_{}{}", $prefix, stringify!($name)), place::$name as usize),)*]
    }};
}

/// Where the fields of a desk's memory begin, which are private.
fn memory() -> Vec<Same> {
    let field = |&(name, offset): &(&str, usize)| {
        let expression = format!("offsetof(struct wurzsige, {name})");
        (expression, offset)
    };
    Memory::OFFSETS.iter().map(field).collect()
}

fn all() -> Vec<Same> {
    [
        fields!(Memory, "struct wurzsige",),
        memory(),
        fields!(Told, "struct wurzsige_answer", numbers place next word count more),
        fields!(Sizes, "struct wurzsige_room", bytes words text),
        constants!(wurzsige_sys, "": VERSION TABLES CONSTRAINTS FILLINGS DESKS VALUES RANGES COLUMNS
            JOINS FREE MOST_COMMAND),
        constants!(wurzsige_sys, "": ROWS CELLS DESIGN_WORDS HELD_WORDS CATALOG KEYS WORKING NUMBERS
            MOST_SCRIPT MOST_DESIGN MOST_TEXT FETCH_WORDS VERDICT_WORDS),
        constants!(verdict, "VERDICT_": FETCHES ONCE_LINKED ONCE_UNIQUE NEVER SEEING),
        constants!(word, "": LOADED HELD NO_CANDIDATE DROPPED GROUND SENT LISTS REFUSED EVEN UNEVEN
            TOTAL KNOT DESK OPEN OPENER NO_OPENER ABSENT REASON CHANGED DESIGN),
        constants!(cause, "CAUSE_": TOO_FEW_BYTES UNKNOWN_COMMAND OUT_OF_ORDER TOO_MANY
            WRONG_OPERAND VALUE_TWICE TOO_SHORT NO_PLACE_FREE VALUE_ZERO NOT_HELD ANSWER_TOO_LONG
            UNLAWFUL TOTAL_TOO_LARGE OTHER_VERSION),
        constants!(command, "COMMAND_": TABLE CONSTRAINT FILLING ROW END ROW_ISSUED REFER DROP
            PROBE QUERY EVEN TOTAL DESK REASON OPENER HOLD RELEASE KNOT PUT REMOVE REFER_ISSUED
            DROP_ISSUED PROBE_ISSUED QUERY_ISSUED TOTAL_ISSUED),
    ]
    .concat()
}

/// A program that prints each expression's value on a line.
fn program(same: &[Same]) -> String {
    let print = |(expression, _): &Same| format!("printf(\"%zu\\n\", (size_t)({expression}));");
    let prints: Vec<String> = same.iter().map(print).collect();
    format!(
        "#include <stdio.h>\n#include <wurzsige.h>\nint main(void) {{ {} return 0; }}\n",
        prints.join(" ")
    )
}

#[test]
fn structs_and_constants_are_those_of_the_header() {
    let same = all();
    let printed = printed_by_c("layout", &program(&same));
    assert_eq!(printed.len(), same.len());
    for ((expression, here), there) in same.iter().zip(printed) {
        assert_eq!(here.to_string(), there, "{expression}");
    }
}

/// The struct has no field that is missing here.
#[test]
fn every_field_of_the_header_s_desk_is_compared() {
    let header = fs::read_to_string(include().join("wurzsige.h")).expect("the header");
    let (_, fields) = header.split_once("struct wurzsige {").expect("the struct");
    let (fields, _) = fields.split_once('}').expect("its end");
    let name = |field: &str| Some(field.split_once('[')?.0.rsplit_once(' ')?.1.to_string());
    let there: Vec<String> = fields.lines().filter_map(name).collect();
    let here: Vec<&str> = Memory::OFFSETS.iter().map(|&(name, _)| name).collect();
    assert_eq!(here, there);
}

/// A name that the header gets and this crate doesn't would go unseen above.
#[test]
fn the_header_has_no_constant_that_is_missing_here() {
    let headers = ["", "/commands", "/reading", "/slices"].map(|name| format!("wurzsige{name}.h"));
    let headers = headers.map(|name| fs::read_to_string(include().join(name)));
    let headers = headers.map(|text| text.expect("a header")).concat();
    let known: Vec<String> = all().into_iter().map(|(name, _)| name).collect();
    let assigned = headers.lines().filter_map(|line| {
        let line = line.trim();
        let defined = line
            .strip_prefix("#define ")
            .and_then(|l| l.split_once(' '));
        let (name, _) = defined.or_else(|| line.split_once(" = "))?;
        name.starts_with("WURZSIGE_").then_some(name)
    });
    let mut assigned: Vec<&str> = assigned.collect();
    let mut known: Vec<&str> = known.iter().map(String::as_str).collect();
    known.retain(|name| name.starts_with("WURZSIGE_"));
    known.sort_unstable();
    assigned.sort_unstable();
    assert_eq!(assigned, known);
}
