//! The commands over a database: the laboratory of `examples`, each test with a file of its own.

mod program;

use program::{expected, wurzsige, wurzsige_reading, Ran, SLEEP};
use testing::{Folder, Lab};

/// The example's database, and what the program is told of it.
fn laboratory() -> (Lab, String) {
    let lab = Lab::sqlite(&program::text("examples/lab.sql"));
    let argument = lab.argument();
    (lab, argument)
}

/// A text without the times at which snapshots were taken.
fn timeless(text: &str) -> String {
    let mut out = String::new();
    let mut rest = text;
    while let Some(at) = rest.find("20") {
        let time = rest[at..].get(..19).filter(|time| is_time(time));
        match time {
            Some(_) => {
                out += &rest[..at];
                out += "2025-11-17 12:41:07";
                rest = &rest[at + 19..];
            }
            None => {
                out += &rest[..at + 2];
                rest = &rest[at + 2..];
            }
        }
    }
    out + rest
}

/// Whether a text is a date and a time with seconds.
fn is_time(text: &str) -> bool {
    let digits = text
        .bytes()
        .map(|byte| if byte.is_ascii_digit() { b'0' } else { byte });
    digits.eq(*b"0000-00-00 00:00:00")
}

/// What a command writes is what stands in a file of `expected`, but for the times.
fn assert_written(ran: &Ran, status: i32, name: &str) {
    assert_eq!(timeless(&ran.output), expected(name), "{name}");
    assert_eq!((ran.errors.as_str(), ran.status), ("", status), "{name}");
}

/// Commands for a session, with one reply each.
fn asked(source: &str, format: &str, commands: &[&str]) -> Ran {
    let input = commands.join("\n");
    wurzsige_reading(
        &["ask", SLEEP, "--source", source, "--format", format],
        input.as_bytes(),
    )
}

#[test]
fn try_tells_what_loads_drag_in() {
    let (_lab, source) = laboratory();
    let ward = wurzsige(&["try", SLEEP, "ward=W-NORD", "--source", &source]);
    assert_written(&ward, 0, "try-ward.txt");
    let two = [
        "try",
        SLEEP,
        "ward=W-OST",
        "night=50030",
        "night=50001..50003",
        "ward=W-OST",
        "night=9",
    ];
    let several = [&two[..], &["--source", &source]].concat();
    assert_written(&wurzsige(&several), 0, "try-several.txt");
    let json = [&several[..], &["--format", "json"]].concat();
    assert_written(&wurzsige(&json), 0, "try-several.json");
}

#[test]
fn try_loads_nothing_past_512_rows() {
    let (_lab, source) = laboratory();
    let all = wurzsige(&["try", SLEEP, "night=50001..50100", "--source", &source]);
    assert_written(&all, 2, "try-too-large.txt");
    let json = [
        "try",
        SLEEP,
        "ward=W-NORD",
        "ward=W-WEST",
        "--source",
        &source,
        "--format",
        "json",
    ];
    let ran = wurzsige(&json);
    let lines: Vec<&str> = ran.output.lines().collect();
    assert!(lines[0].starts_with(
        r#"{"load":"ward","value":"W-NORD","answer":"loaded","rows":294,"rounds":3,"tables":{"#
    ));
    assert!(
        lines[1].starts_with(r#"{"load":"ward","value":"W-WEST","answer":"too large","rows":51"#),
        "{}",
        lines[1]
    );
    assert_eq!((lines.len(), ran.status), (2, 2));
}

/// Beside loads that fitted, a load is told with what it has by itself.
#[test]
fn try_tells_loads_that_do_not_fit_together() {
    let (_lab, source) = laboratory();
    let loads = ["ward=W-NORD", "ward=W-WEST", "night=50001..50100"];
    let ran = wurzsige(&[&["try", SLEEP], &loads[..], &["--source", &source]].concat());
    let (_, behind) = ran
        .output
        .split_once("error")
        .expect("a load that is too large");
    assert_eq!(format!("error{behind}"), expected("try-together.txt"));
    assert_eq!(ran.status, 2);
}

/// The page of E004: its database and designs.
#[test]
fn the_page_on_what_is_too_large_holds() {
    let page = design::Code::E004.page();
    let (statements, kind) = page.database().expect("a database");
    assert_eq!(kind, "SQLite");
    let lab = Lab::sqlite(&statements);
    let (wrong, load) = page.wrong().expect("an example");
    let right = page.right().expect("an example");
    let run = |text: &str| {
        wurzsige_reading(
            &["try", "-", load, "--source", &lab.argument()],
            text.as_bytes(),
        )
    };
    let ran = run(&wrong);
    assert!(
        ran.output
            .starts_with("error[E004]: night 1 needs more than 512 rows\n"),
        "{}",
        ran.output
    );
    assert!(
        ran.output
            .contains("= help: without link line 7 it has 1 row\n"),
        "{}",
        ran.output
    );
    assert_eq!(ran.status, 2);
    assert_eq!(run(&right).status, 0);
}

const COMMANDS: &[&str] = &[
    "ask subject.hospital_no = \"H-10007\"",
    "load ward \"W-OST\"",
    "# a comment, and an empty line",
    "",
    "ask \"Subjects of a ward\" W-OST",
    "ask subject.ward_code = W-OST with recording, scoring, staff by scoring.scorer_id -> staff.id",
    "ask \"Apnoea seconds of a ward\" \"W-OST\"",
    "ask \"A physician's subjects\" 3c6ef362-57af-4000-8000-000000000002",
    "ask \"Who scored this night\" 50029",
    "why event 157",
    "why channel 50029|C3",
    "why event 1",
    "why event 9999",
    "held",
    "probe scoring.recording_id = 50029",
    "probe scoring.recording_id = 50001",
    "opener channel.recording_id = 50001",
    "opener channel.recording_id = 50029",
    "load night 50001..50002",
    "load night 50001..50002",
    "load night 9",
    "desk 1",
    "load ward W-OST",
    "held",
    "rows",
    "drop ward W-OST",
    "desk 0",
    "drop night 50001..50002",
    "refresh",
];

#[test]
fn ask_replies_to_every_command() {
    let (_lab, source) = laboratory();
    assert_written(&asked(&source, "text", COMMANDS), 0, "ask.txt");
    assert_written(&asked(&source, "json", COMMANDS), 0, "ask.json");
    let help = asked(&source, "text", &["help", "quit", "held"]);
    assert!(
        help.output.starts_with("  load NAME VALUE "),
        "{}",
        help.output
    );
    assert!(
        !help.output.contains("nothing is held"),
        "it goes on behind quit"
    );
}

/// A command that can't be carried out says why, and the next one is read.
#[test]
fn ask_refuses_by_name() {
    let (_lab, source) = laboratory();
    let commands = [
        "laod ward W-OST",
        "load wrd W-OST",
        "load ward",
        "load night x",
        "load night 0",
        "load night 3..2",
        "load ward \"W-OST",
        "drop ward W-OST",
        "ask \"Subjects of ward\" W-OST",
        "ask subject.wrd = x",
        "ask staff.role = scorer",
        "probe subject.ward_code = x with recording",
        "why evnt 1",
        "why channel 50029",
        "desk 4",
        "held now",
        "load night 50001..50100",
    ];
    assert_written(&asked(&source, "text", &commands), 2, "ask-refused.txt");
    assert_written(&asked(&source, "json", &commands), 2, "ask-refused.json");
}

/// Rows that come, go and change between two commands are seen after `refresh`, and not before.
#[test]
fn ask_sees_changes_after_a_refresh() {
    use std::io::{BufRead, BufReader, Write};
    use std::process::{Command, Stdio};
    let (lab, source) = laboratory();
    lab.run("PRAGMA journal_mode = WAL");
    let mut child = Command::new(env!("CARGO_BIN_EXE_wurzsige"))
        .args(["ask", SLEEP, "--source", &source, "--format", "json"])
        .current_dir(program::top())
        .stdin(Stdio::piped())
        .stdout(Stdio::piped())
        .spawn()
        .expect("the program");
    let mut input = child.stdin.take().expect("its input");
    let mut output = BufReader::new(child.stdout.take().expect("its output"));
    let mut reply = |command: &str| {
        writeln!(input, "{command}").expect("it reads");
        let mut line = String::new();
        output.read_line(&mut line).expect("it replies");
        line
    };
    let question = "ask \"Apnoea seconds of a ward\" W-OST";
    let before = reply(question);
    lab.run("UPDATE event SET duration_s = duration_s + 100 WHERE id = 157; DELETE FROM event WHERE id = 158");
    assert_eq!(reply(question), before);
    let refreshed = reply("refresh");
    assert!(
        refreshed.starts_with(r#"{"answer":"refreshed","came":0,"went":1,"changed":1,"rows":157,"#),
        "{refreshed}"
    );
    let seconds = |line: &str| -> i64 {
        let digits: String = line.chars().filter(char::is_ascii_digit).collect();
        digits.parse().expect("a total")
    };
    let gone: i64 = 5 + (2 * 13 + 50_029) % 31;
    assert_eq!(seconds(&reply(question)), seconds(&before) + 100 - gone);
    drop(input);
    assert_eq!(child.wait().expect("it ends").code(), Some(0));
}

#[test]
fn diff_tells_what_loads_cost() {
    let (_lab, source) = laboratory();
    let folder = Folder::make();
    let changed = folder.path().join("changed.design");
    let text = program::text(SLEEP);
    let line = "link staff.supervisor_id   -> staff.id               \"supervises\"";
    assert!(text.contains(line));
    let new = text.replace(
        line,
        "link ward.code             -> subject.ward_code      \"is on\"",
    );
    std::fs::write(&changed, new).expect("a file");
    let changed = changed.display().to_string();
    let diff =
        |more: &[&str]| wurzsige(&[&["diff", SLEEP, &changed, "--source", &source], more].concat());
    assert_written(&diff(&[]), 1, "diff-cost.txt");
    let named = diff(&[
        "--value",
        "ward=W-NORD",
        "--value",
        "night=50010",
        "--format",
        "json",
    ]);
    let costs = r#""costs":[{"load":"ward","value":"W-NORD","before":294,"after":293},{"load":"night","value":"50010","before":20,"after":293}]}"#;
    assert!(named.output.trim_end().ends_with(costs), "{}", named.output);
    assert_eq!(
        wurzsige(&["diff", SLEEP, &changed, "--value", "ward=W-NORD"]).status,
        2
    );
    let refused = diff(&["--value", "wrd=W-NORD"]);
    assert_eq!(
        refused.errors,
        "wurzsige: there is no load `wrd`: did you mean `ward`?\n"
    );
}

/// The script with the rows of loads is one that the desk opens, with these rows and no others.
#[test]
fn script_has_the_rows_of_loads() {
    let (_lab, source) = laboratory();
    let ran = wurzsige(&["script", SLEEP, "ward=W-OST", "--rows", "--source", &source]);
    assert_eq!((ran.errors.as_str(), ran.status), ("", 0));
    let mut desk = wurzsige::Desk::open(&ran.bytes).expect("a script");
    assert_eq!(desk.counts().to_string(), "design 7 11 2 158");
    let first = desk
        .rows()
        .find(|(_, row)| row.table == 2)
        .expect("a subject")
        .1;
    let column = desk.design().fillings[0].column;
    let value = first.cells[usize::from(column.column)];
    let loaded = wurzsige::Referred::Loaded {
        rows: 158,
        rounds: 3,
    };
    assert_eq!(desk.refer(0, value), Ok(loaded));
    let ran = wurzsige(&[
        "script",
        SLEEP,
        "night=50001..50100",
        "--rows",
        "--source",
        &source,
    ]);
    assert_eq!(ran.errors, "wurzsige: it needs more than 512 rows\n");
    assert_eq!((ran.output.as_str(), ran.status), ("", 2));
}

#[test]
fn what_is_not_there_is_told() {
    for command in [
        &["try", SLEEP, "ward=x"][..],
        &["ask", SLEEP],
        &["script", SLEEP, "ward=x", "--rows"],
    ] {
        let nowhere = [command, &["--source", "sqlite:nowhere.db"]].concat();
        let ran = wurzsige(&nowhere);
        assert!(
            ran.errors.starts_with("wurzsige: nowhere.db: "),
            "{}",
            ran.errors
        );
        assert_eq!((ran.output.as_str(), ran.status), ("", 3), "{command:?}");
        let ran = wurzsige(&[command, &["--source", "nowhere.db"]].concat());
        assert_eq!(ran.status, 2, "{command:?}");
    }
    assert!(
        !program::top().join("nowhere.db").exists(),
        "nothing is made"
    );
    let ran = wurzsige(&["ask", "-"]);
    assert_eq!(
        ran.errors,
        "wurzsige: standard input has the commands: name the design's file\n"
    );
    let (_lab, source) = laboratory();
    let ran = wurzsige(&["try", SLEEP, "W-NORD", "--source", &source]);
    assert_eq!(
        ran.errors,
        "wurzsige: `W-NORD` is no load: write LOAD=VALUE\n"
    );
}

/// The blocks of text on the page for users below a heading.
fn block(heading: &str) -> String {
    let page = program::text("docs/USING.md");
    let (_, below) = page.split_once(heading).expect(heading);
    let (_, block) = below.split_once("```text\n").expect("a block");
    let (block, _) = block.split_once("```").expect("its end");
    block.to_string()
}

/// What the page for users shows of `try` and of a first session is what the program writes.
#[test]
fn the_sessions_of_the_page_for_users() {
    let (_lab, source) = laboratory();
    let tried = wurzsige(&["try", SLEEP, "ward=W-NORD", "--source", &source]);
    assert_eq!(
        timeless(&tried.output),
        block("## Trying, on the real database")
    );
    let session = block("## Asking: a first session");
    let is_command = |line: &&str| line.starts_with("desk 0> ");
    let commands: Vec<&str> = session
        .lines()
        .filter(is_command)
        .map(|line| &line[8..])
        .collect();
    assert!(commands.len() > 8, "{session}");
    let replies: Vec<&str> = session.lines().filter(|line| !is_command(line)).collect();
    let written = asked(&source, "text", &commands).output;
    assert_eq!(written.lines().collect::<Vec<_>>(), replies);
}
