//! The program as people and programs use it: what it writes, where, and how it ends.

mod program;

use program::{design, expected, wurzsige, Ran, SLEEP};

/// What a command writes is what stands in a file of `expected`.
fn assert_written(ran: &Ran, status: i32, name: &str) {
    assert_eq!(ran.output, expected(name), "{name}");
    assert_eq!((ran.errors.as_str(), ran.status), ("", status), "{name}");
}

#[test]
fn check_tells_what_the_library_says() {
    assert_written(&wurzsige(&["check", SLEEP]), 1, "check-sleep.txt");
    assert_written(
        &wurzsige(&["check", "--format", "json", SLEEP]),
        1,
        "check-sleep.json",
    );
    assert_written(&wurzsige(&["check", &design("even")]), 0, "check-even.txt");
    assert_written(
        &wurzsige(&["check", "--format", "json", &design("even")]),
        0,
        "check-even.json",
    );
    assert_written(&wurzsige(&["check", &design("full")]), 1, "check-full.txt");
    assert_written(
        &wurzsige(&["check", &design("knots")]),
        1,
        "check-knots.txt",
    );
}

#[test]
fn check_tells_all_mistakes() {
    assert_written(
        &wurzsige(&["check", &design("mistakes")]),
        2,
        "check-mistakes.txt",
    );
    let json = wurzsige(&["check", "--format", "json", &design("mistakes")]);
    assert_written(&json, 2, "check-mistakes.json");
}

#[test]
fn line_ends_of_another_system_change_nothing() {
    let text = program::text(&design("mistakes"));
    let unix = program::wurzsige_reading(&["check", "-"], text.as_bytes());
    let other = program::wurzsige_reading(&["check", "-"], text.replace('\n', "\r\n").as_bytes());
    let marked = program::wurzsige_reading(&["check", "-"], format!("\u{feff}{text}").as_bytes());
    assert_eq!((&other.output, other.status), (&unix.output, 2));
    assert_eq!((&marked.output, marked.status), (&unix.output, 2));
    assert!(
        unix.output.contains("┌─ standard input:10:41"),
        "{}",
        unix.output
    );
}

#[test]
fn a_file_that_is_no_text_is_told_as_such() {
    let ran = program::wurzsige_reading(&["check", "-"], b"design \"Sleep\"\n\xff");
    let told = "wurzsige: standard input:2:1: error[E001]: the file isn't text: the byte 0xff isn't UTF-8\n";
    assert_eq!(
        (ran.output.as_str(), ran.errors.as_str(), ran.status),
        ("", told, 3)
    );
    let ran = program::wurzsige_reading(&["check", "--format", "json", "-"], b"design\0");
    assert!(
        ran.output
            .contains(r#""problems":[{"code":"E001","severity":"error","line":1,"column":7,"#),
        "{}",
        ran.output
    );
    assert_eq!((ran.errors.as_str(), ran.status), ("", 3));
}

#[test]
fn an_empty_file_is_no_design() {
    let ran = program::wurzsige_reading(&["check", "-"], b"");
    assert!(
        ran.output
            .starts_with("error[E060]: the design has no title\n"),
        "{}",
        ran.output
    );
    assert_eq!((ran.errors.as_str(), ran.status), ("", 2));
    let ran = program::wurzsige_reading(&["check", "-"], b"design \"Nothing\"");
    assert!(
        ran.output.contains("  accepted   0 of 8 tables"),
        "{}",
        ran.output
    );
    assert_eq!(ran.status, 0);
}

#[test]
fn a_file_that_is_not_there_is_told_for_every_command() {
    for command in ["check", "draw", "script"] {
        let ran = wurzsige(&[command, "nowhere.design"]);
        assert!(
            ran.errors.starts_with("wurzsige: nowhere.design: "),
            "{}",
            ran.errors
        );
        assert_eq!((ran.output.as_str(), ran.status), ("", 3), "{command}");
    }
    assert_eq!(wurzsige(&["diff", SLEEP, "nowhere.design"]).status, 3);
    assert_eq!(wurzsige(&["diff", "nowhere.design", SLEEP]).status, 3);
}

/// Where a picture or bytes go to standard output, mistakes go to standard error.
#[test]
fn mistakes_do_not_mix_with_what_is_written() {
    for arguments in [
        vec!["draw".to_string(), design("mistakes")],
        vec!["script".into(), design("mistakes")],
        vec!["diff".into(), SLEEP.into(), design("mistakes")],
    ] {
        let arguments: Vec<&str> = arguments.iter().map(String::as_str).collect();
        let ran = wurzsige(&arguments);
        assert_eq!(ran.errors, expected("check-mistakes.txt"), "{arguments:?}");
        assert_eq!((ran.output.as_str(), ran.status), ("", 2), "{arguments:?}");
    }
}

#[test]
fn diff_tells_what_came_and_went() {
    assert_written(
        &wurzsige(&["diff", SLEEP, &design("changed")]),
        1,
        "diff-changed.txt",
    );
    let json = wurzsige(&["diff", "--format", "json", SLEEP, &design("changed")]);
    assert_written(&json, 1, "diff-changed.json");
    assert_written(
        &wurzsige(&["diff", &design("changed"), SLEEP]),
        1,
        "diff-back.txt",
    );
    assert_written(&wurzsige(&["diff", SLEEP, SLEEP]), 0, "diff-same.txt");
    assert_written(
        &wurzsige(&["diff", &design("even"), &design("even")]),
        0,
        "diff-even.txt",
    );
}

/// What is shown is told by the line on which it stands.
/// A title and a source come and go as lines do.
#[test]
fn diff_tells_another_title_and_source() {
    let old = "design \"Sleep\"\nsource sqlite \"lab.db\"\ntable ward\n    code key text\n";
    let new = "design \"Sleep, new\"\n# no longer a file\nsource postgres \"service=agnes\"\ntable ward\n    code key text\n";
    let path = program::scratch("head.design");
    std::fs::write(&path, old).expect("a file");
    let path = path.to_str().expect("a name");
    let ran = program::wurzsige_reading(&["diff", path, "-"], new.as_bytes());
    let told = [
        "- design \"Sleep\"  (line 1)",
        "- source sqlite \"lab.db\"  (line 2)",
        "+ design \"Sleep, new\"  (line 1)",
        "+ source postgres \"service=agnes\"  (line 3)",
        "  knots      none, as before\n",
    ];
    assert_eq!(ran.output, told.join("\n"));
    assert_eq!((ran.errors.as_str(), ran.status), ("", 0));
    let without = new.replace("source postgres \"service=agnes\"\n", "");
    let ran =
        program::wurzsige_reading(&["diff", path, "-", "--format", "json"], without.as_bytes());
    let head = r#"{"head":{"came":["design \"Sleep, new\""],"went":["design \"Sleep\"","source sqlite \"lab.db\""]},"tables":{"came":[],"went":[]},"#;
    assert!(ran.output.starts_with(head), "{}", ran.output);
    assert_eq!(ran.status, 0);
}

#[test]
fn diff_tells_the_lines_of_what_is_shown() {
    let table = "design \"Wards\"\ntable ward\n    code key text\n";
    let old = program::scratch("shown.design");
    std::fs::write(&old, format!("{table}load ward by ward.code\n")).expect("a file");
    let new = format!("{table}    show name\nload ward by ward.code\n");
    let arguments = ["diff", old.to_str().expect("a name"), "-"];
    let ran = program::wurzsige_reading(&arguments, new.as_bytes());
    assert!(
        ran.output.starts_with("+ show ward.name  (line 4)\n"),
        "{}",
        ran.output
    );
    assert_eq!((ran.errors.as_str(), ran.status), ("", 0));
}

#[test]
fn explain_has_a_page_for_every_code() {
    let list = wurzsige(&["explain"]);
    assert_eq!(list.status, 0);
    for code in design::Code::ALL {
        let ran = wurzsige(&["explain", &code.name().to_lowercase()]);
        assert_eq!((ran.output.as_str(), ran.status), (code.page().text(), 0));
        let line = format!("{:4}  {}\n", code.name(), code.page().title());
        assert!(list.output.contains(&line), "{line}");
    }
    let ran = wurzsige(&["explain", "X012"]);
    assert_eq!(
        ran.errors,
        "wurzsige: there is no code `X012`: did you mean E012?\n"
    );
    assert_eq!(ran.status, 2);
}

/// The examples of the page on a file that isn't text are commands.
#[test]
fn the_page_of_files_that_are_no_text_holds() {
    let page = design::Code::E001.page();
    let (wrong, place) = page.wrong().expect("an example");
    let ran = program::shell(&wrong);
    let told = format!("wurzsige: standard input:{place}: error[E001]: the file isn't text: ");
    assert!(ran.errors.starts_with(&told), "{}", ran.errors);
    assert_eq!((ran.output.as_str(), ran.status), ("", 3));
    let ran = program::shell(&page.right().expect("an example"));
    assert!(ran.output.contains("Schläfer"), "{}", ran.output);
    assert_eq!((ran.errors.as_str(), ran.status), ("", 0));
}

/// The examples of the codes for which the library is asked.
#[test]
fn the_pages_of_warnings_hold() {
    assert_page_holds(design::Code::W01);
    assert_page_holds(design::Code::W02);
}

fn assert_page_holds(code: design::Code) {
    let check = |text: String| {
        program::wurzsige_reading(&["check", "--format", "json", "-"], text.as_bytes())
    };
    let (text, place) = code.page().wrong().expect("an example");
    let (line, column) = place.split_once(':').expect("a line and a column");
    let told = format!(
        r#""problems":[{{"code":"{}","severity":"warning","line":{line},"column":{column},"#,
        code.name()
    );
    let wrong = check(text);
    assert!(wrong.output.contains(&told), "{told}\n{}", wrong.output);
    assert_eq!(
        (wrong.output.matches(r#""code""#).count(), wrong.status),
        (1, 1)
    );
    let right = check(code.page().right().expect("an example"));
    assert!(
        right.output.ends_with("\"problems\":[]}\n"),
        "{}",
        right.output
    );
    assert_eq!(right.status, 0);
}

#[test]
fn colour_is_for_terminals() {
    let plain = wurzsige(&["check", SLEEP]).output;
    assert!(!plain.contains('\u{1b}'));
    let coloured = wurzsige(&["check", "--color", "always", SLEEP]).output;
    assert!(coloured.contains("\u{1b}["));
    assert_eq!(program::without_colour(&coloured), plain);
    assert_eq!(
        wurzsige(&["check", "--color", "never", SLEEP]).output,
        plain
    );
}

#[test]
fn a_command_that_is_none_is_refused() {
    for arguments in [
        &["cheque", SLEEP][..],
        &["check"],
        &[],
        &["check", "--format", "xml", SLEEP],
        &["completion", "sh"],
    ] {
        let ran = wurzsige(arguments);
        assert_eq!((ran.output.as_str(), ran.status), ("", 2), "{arguments:?}");
    }
}

#[test]
fn version_and_help() {
    assert_eq!(
        wurzsige(&["--version"]).output,
        format!("wurzsige {}\n", env!("CARGO_PKG_VERSION"))
    );
    for command in program::commands() {
        let ran = wurzsige(&[&command, "--help"]);
        assert_eq!(ran.status, 0, "{command}");
        assert!(
            ran.output.contains(&format!("Usage: wurzsige {command}")),
            "{}",
            ran.output
        );
    }
}

/// The manual page and the completions know every command and option.
#[test]
fn manual_and_completions_are_whole() {
    let manual = include_str!("../man/wurzsige.1").replace('\\', "");
    let shells = ["bash", "elvish", "fish", "powershell", "zsh"];
    let completions = shells.map(|shell| wurzsige(&["completion", shell]));
    for word in program::commands().into_iter().chain(program::options()) {
        assert!(manual.contains(&word), "the manual page has no {word}");
        for completion in &completions {
            let word = word.trim_start_matches('-');
            assert!(
                completion.output.contains(word),
                "{word}\n{}",
                completion.output
            );
        }
    }
    assert!(manual.contains(&format!("\"wurzsige {}\"", env!("CARGO_PKG_VERSION"))));
}
