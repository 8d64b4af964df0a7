//! The declarations of the exported functions, held to the header's, parameter by
//! parameter: both texts are read, since no compiler sees the two together.

use std::fs;
use std::path::Path;

/// A function: its name, what it gives, and its parameters' names and types, all as C
/// writes them, without blanks in the types.
type Function = (String, String, Vec<(String, String)>);

fn read(path: &str) -> String {
    let path = Path::new(env!("CARGO_MANIFEST_DIR")).join(path);
    fs::read_to_string(path).expect("a file of the repository")
}

/// The parameters between the parentheses that begin a text.
fn parameters(text: &str) -> impl Iterator<Item = &str> {
    let (inside, _) = text.split_once(')').expect("an end of the parameters");
    let parameters = inside.split(',').map(str::trim);
    parameters.filter(|&parameter| !parameter.is_empty() && parameter != "void")
}

/// A text in C without its comments.
fn without_comments(text: &str) -> String {
    let mut pieces = text.split("/*");
    let first = pieces.next().unwrap_or_default().to_string();
    pieces.fold(first, |text, piece| {
        let (_, behind) = piece.split_once("*/").expect("an end of the comment");
        text + behind
    })
}

/// The functions that the header declares and doesn't define.
fn in_the_header() -> Vec<Function> {
    let text = without_comments(&read("include/wurzsige.h"));
    let declared = text.split(';').filter_map(|piece| {
        let (head, rest) = piece.trim().split_once('(')?;
        let (gives, name) = head.split_once(' ')?;
        // The functions on a whole desk, which are defined there, call these.
        let exported = name.starts_with("wurzsige_parts_") || name == "wurzsige_version";
        let declared = exported && gives != "return";
        declared.then_some((gives, name, rest))
    });
    let function = |(gives, name, rest): (&str, &str, &str)| {
        let parameter = |parameter: &str| {
            let name = parameter.rfind([' ', '*']).expect("a type before the name") + 1;
            let (c_type, name) = parameter.split_at(name);
            (name.to_string(), c_type.replace([' ', '\n'], ""))
        };
        let parameters = parameters(rest).map(parameter).collect();
        (name.to_string(), gives.to_string(), parameters)
    };
    declared.map(function).collect()
}

/// What C calls a type of Rust: a pointer, a reference to one thing or to an array, or a
/// number.
fn c_type(rust: &str) -> String {
    if let Some(pointee) = ["*const ", "&["].iter().find_map(|p| rust.strip_prefix(p)) {
        let element = pointee.split(';').next().unwrap_or(pointee);
        return format!("const{}*", c_type(element));
    }
    let pointers = ["*mut ", "&mut [", "&mut "];
    if let Some(pointee) = pointers.iter().find_map(|p| rust.strip_prefix(p)) {
        let element = pointee.split(';').next().unwrap_or(pointee);
        return format!("{}*", c_type(element));
    }
    match rust {
        "u8" => "uint8_t",
        "u16" => "uint16_t",
        "u32" => "uint32_t",
        "u64" => "uint64_t",
        "usize" => "size_t",
        other => panic!("{other} stands in no declaration"),
    }
    .to_string()
}

fn here() -> Vec<Function> {
    let text = read("src/parts.rs");
    let function = |piece: &str| {
        let (name, rest) = piece.split_once('(').expect("parameters");
        let parameter = |parameter: &str| {
            let (name, rust) = parameter.split_once(": ").expect("a type");
            (name.to_string(), c_type(rust))
        };
        let (_, behind) = rest.split_once(')').expect("an end of the parameters");
        let gives = match behind.split_once(';') {
            Some(("", _)) => "void".to_string(),
            Some((gives, _)) => c_type(gives.trim_start_matches(" -> ")),
            None => panic!("{name} has no end"),
        };
        let parameters = parameters(rest).map(parameter).collect();
        (name.to_string(), gives, parameters)
    };
    text.split("pub fn ").skip(1).map(function).collect()
}

#[test]
fn the_functions_are_declared_as_in_the_header() {
    let (there, here) = (in_the_header(), here());
    assert_eq!(there.len(), 10);
    assert_eq!(here, there);
}
