//! `init`: a draft on standard output or in a file, and `check` on it.

mod program;

use program::{wurzsige, wurzsige_reading};
use testing::{Folder, Lab};

const LAB: &str = "
    CREATE TABLE ward (code text PRIMARY KEY NOT NULL, name text);
    CREATE TABLE subject (id integer PRIMARY KEY NOT NULL, ward_code text REFERENCES ward, mentor integer REFERENCES subject);
    INSERT INTO ward VALUES ('W-NORD', 'North');
    INSERT INTO subject VALUES (1, 'W-NORD', NULL), (2, 'W-NORD', 1);
";

/// A draft passes as it is; with its links it has the knot that they are.
#[test]
fn a_draft_passes_check() {
    for lab in Lab::both(LAB) {
        let ran = wurzsige(&["init", &lab.argument()]);
        assert_eq!((ran.errors.as_str(), ran.status), ("", 0), "{}", lab.name());
        let checked = wurzsige_reading(&["check", "-"], ran.output.as_bytes());
        assert_eq!(checked.status, 0, "{}", checked.output);
        let linked = ran.output.replace("# link ", "link ");
        assert_ne!(linked, ran.output);
        let checked = wurzsige_reading(&["check", "-"], linked.as_bytes());
        assert_eq!(checked.status, 1, "{}", checked.output);
        assert!(
            checked
                .output
                .contains("  accepted   2 of 8 tables, 4 of 16 links, 2 of 8 loads"),
            "{}",
            checked.output
        );
        assert!(
            checked.output.contains("warning[W01]"),
            "{}",
            checked.output
        );
    }
}

#[test]
fn a_draft_goes_to_a_file() {
    let lab = Lab::sqlite(LAB);
    let folder = Folder::make();
    let file = folder.path().join("draft.design");
    let file = file.to_str().expect("a path");
    let ran = wurzsige(&["init", &lab.argument(), "-o", file]);
    assert_eq!(
        (ran.output.as_str(), ran.errors.as_str(), ran.status),
        ("", "", 0)
    );
    assert_eq!(wurzsige(&["check", file]).status, 0);
}

#[test]
fn what_is_no_database() {
    let ran = wurzsige(&["init", "lab.db"]);
    assert_eq!(
        ran.errors,
        "wurzsige: `lab.db` is no database: write sqlite:FILE or postgres:CONNINFO\n"
    );
    assert_eq!((ran.output.as_str(), ran.status), ("", 2));
    let ran = wurzsige(&["init", "sqlite:nowhere.db"]);
    assert!(
        ran.errors.starts_with("wurzsige: nowhere.db: No such file"),
        "{}",
        ran.errors
    );
    assert_eq!((ran.output.as_str(), ran.status), ("", 3));
    let folder = Folder::make();
    let ran = wurzsige(&[
        "init",
        &format!("postgres:host={}", folder.path().display()),
    ]);
    assert!(
        ran.errors
            .starts_with("wurzsige: connection to server on socket"),
        "{}",
        ran.errors
    );
    assert_eq!((ran.output.as_str(), ran.status), ("", 3));
}
