//! That every public item of the two crates has an example on its page, and every method one of its own, which the tests of the pages run.

use std::fs;
use std::path::{Path, PathBuf};

/// Files without a public item: what they have is for the crates themselves, or hidden.
const WITHIN: [&str; 4] = [
    "wurzsige/src/command.rs",
    "wurzsige/src/fault.rs",
    "wurzsige/src/sound.rs",
    "wurzsige-sys/src/parts.rs",
];

/// How an item with a page begins, or a method. A module that is a file has its example at the file's beginning.
const KINDS: [&str; 6] = [
    "pub struct ",
    "pub enum ",
    "pub fn ",
    "pub const ",
    "pub unsafe fn ",
    "pub mod verdict",
];

/// The files of both crates that have public items.
fn sources() -> Vec<PathBuf> {
    let folder = Path::new(env!("CARGO_MANIFEST_DIR")).join("..");
    let mut sources = Vec::new();
    for package in ["wurzsige", "wurzsige-sys"] {
        let files = fs::read_dir(folder.join(package).join("src")).expect("sources");
        sources.extend(files.map(|file| file.expect("a file").path()));
    }
    sources.retain(|path| WITHIN.iter().all(|within| !path.ends_with(within)));
    sources
}

fn text(path: &Path) -> String {
    fs::read_to_string(path).expect("a source")
}

/// Whether a line begins something that needs an example.
fn begins(line: &str) -> bool {
    KINDS.iter().any(|kind| line.starts_with(kind))
}

/// How many items a file has, and those that have no example before them.
fn without_example(text: &str) -> (usize, Vec<String>) {
    let (mut example, mut hidden, mut count, mut missing) = (false, false, 0, Vec::new());
    for line in text.lines().map(str::trim_start) {
        if line.starts_with("///") {
            example |= line.contains("```");
            continue;
        }
        if line.starts_with("#[") {
            hidden |= line == "#[doc(hidden)]";
            continue;
        }
        if begins(line) && !hidden {
            count += 1;
            if !example {
                missing.push(line.to_string());
            }
        }
        (example, hidden) = (false, false);
    }
    (count, missing)
}

#[test]
fn every_public_item_has_an_example() {
    let mut items = 0;
    for path in sources() {
        let (count, missing) = without_example(&text(&path));
        assert!(missing.is_empty(), "{}: {missing:?}", path.display());
        items += count;
    }
    assert!(items > 100, "only {items} items");
}

/// Constants are made by a macro, which gives each an example; none stands elsewhere without one.
#[test]
fn the_macro_of_constants_gives_examples() {
    let macros = sources()
        .into_iter()
        .filter(|path| path.ends_with("wurzsige-sys/src/constants.rs"));
    for path in macros.clone() {
        assert_eq!(without_example(&text(&path)), (1, vec![]));
    }
    assert_eq!(macros.count(), 1);
}

/// Modules and crates have theirs at the beginning of their files.
#[test]
fn every_public_module_has_an_example() {
    let modules =
        ["cause.rs", "command.rs", "word.rs"].map(|name| format!("wurzsige-sys/src/{name}"));
    let mut found = 0;
    for path in sources() {
        if path.ends_with("lib.rs") || modules.iter().any(|module| path.ends_with(module)) {
            let text = text(&path);
            let mut head = text.lines().take_while(|line| line.starts_with("//!"));
            let has_example = head.any(|line| line.contains("```"));
            assert!(has_example, "{}", path.display());
            found += 1;
        }
    }
    assert_eq!(found, 5);
}
