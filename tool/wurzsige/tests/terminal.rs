//! `ask` on a terminal: the shell with its history and completion, the line that shows a long fetch, and what an interrupted one leaves. No test hopes that a
//! fetch is slow or fast: where one has to last, the database waits for the test.

mod program;

use std::fs;
use std::thread::sleep;
use std::time::Duration;

use program::terminal::{Terminal, CONTROL_C, CONTROL_D, ENTER, TAB, UP};
use program::SLEEP;
use testing::{Folder, Lab, Server, Session};

const PROMPT: &str = "desk 0> ";

/// The shell over a database, at its first prompt.
fn shell(design: &str, lab: &Lab, home: &Folder) -> Terminal {
    let arguments = ["ask", design, "--source", &lab.argument()];
    let mut terminal = Terminal::run(&arguments, home.path());
    terminal.shows("; `help` lists the commands");
    terminal.shows(PROMPT);
    terminal
}

/// A command at the prompt, its reply, and the next prompt.
fn replies(terminal: &mut Terminal, command: &str, reply: &str) {
    terminal.types(&format!("{command}{ENTER}"));
    terminal.shows(reply);
    terminal.shows(PROMPT);
}

fn laboratory() -> Lab {
    Lab::sqlite(&program::text("examples/lab.sql"))
}

#[test]
fn the_shell_replies_and_goes_on() {
    let (lab, home) = (laboratory(), Folder::make());
    let mut terminal = shell(SLEEP, &lab, &home);
    for (command, reply) in [
        ("load ward W-OST", "158 rows in 3 rounds\r\n"),
        ("ask \"Apnoea seconds of a ward\" W-OST", "660\r\n"),
        ("laod ward W-OST", "did you mean `load`?"),
        ("ask subject.wrd = x", "table `subject` has no column `wrd`"),
    ] {
        replies(&mut terminal, command, reply);
    }
    terminal.types(&format!("desk 2{ENTER}"));
    terminal.shows("desk 2> ");
    terminal.types(&format!("quit{ENTER}"));
    assert_eq!(
        terminal.ends().1,
        0,
        "a refused command is no fault of the shell's"
    );
}

/// A line that was begun is thrown away by control and C, and the shell ends by control and D.
#[test]
fn the_shell_knows_the_usual_keys() {
    let (lab, home) = (laboratory(), Folder::make());
    let mut terminal = shell(SLEEP, &lab, &home);
    terminal.types("load ward W-OS");
    terminal.shows("W-OS");
    terminal.types(CONTROL_C);
    terminal.shows(PROMPT);
    replies(&mut terminal, "held", "nothing is held\r\n");
    terminal.types(CONTROL_D);
    assert_eq!(terminal.ends().1, 0);
}

/// Lines come back by the key up, and are gone with the shell: they would keep what patients are called.
#[test]
fn the_history_lasts_as_long_as_the_shell() {
    let (lab, home) = (laboratory(), Folder::make());
    let mut terminal = shell(SLEEP, &lab, &home);
    for (command, reply) in [
        ("held", "nothing is held\r\n"),
        ("rows", "0 rows of 512\r\n"),
    ] {
        replies(&mut terminal, command, reply);
    }
    terminal.types(&format!("{UP}{UP}"));
    terminal.shows("held");
    terminal.types(ENTER);
    terminal.shows("nothing is held\r\n");
    terminal.shows(PROMPT);
    terminal.types(&format!("quit{ENTER}"));
    assert_eq!(terminal.ends().1, 0);
    assert_eq!(fs::read_dir(home.path()).expect("a folder").count(), 0);
    let mut terminal = shell(SLEEP, &lab, &home);
    terminal.types(&format!("{UP}rows{ENTER}"));
    terminal.shows("0 rows of 512\r\n");
    terminal.shows(PROMPT);
    terminal.types(CONTROL_D);
    assert_eq!(terminal.ends().1, 0);
}

#[test]
fn names_are_completed() {
    let (lab, home) = (laboratory(), Folder::make());
    let mut terminal = shell(SLEEP, &lab, &home);
    terminal.types(&format!("lo{TAB}"));
    terminal.shows("load ");
    terminal.types(&format!("w{TAB}"));
    terminal.shows("ward ");
    replies(&mut terminal, "W-OST", "158 rows in 3 rounds\r\n");
    terminal.types(&format!("ask \"Apn{TAB}"));
    terminal.shows("\"Apnoea seconds of a ward\" ");
    replies(&mut terminal, "W-OST", "660\r\n");
    // where there are several, one after the other
    for table in ["staff", "subject", "scoring"] {
        let piece = if table == "staff" { "why s" } else { "" };
        terminal.types(&format!("{piece}{TAB}"));
        terminal.shows(&format!("why {table}"));
    }
    terminal.types(&format!("{CONTROL_C}{CONTROL_D}"));
    assert_eq!(terminal.ends().1, 0);
}

/// Wards whose names come from the server only where a lock can be had.
const GUARDED: &str = "
    CREATE TABLE ward (code text PRIMARY KEY NOT NULL, name text);
    INSERT INTO ward VALUES ('N', 'North'), ('W', 'West');
    CREATE FUNCTION guarded(name text) RETURNS text STABLE LANGUAGE plpgsql AS
        $$ BEGIN PERFORM pg_advisory_lock_shared(7), pg_advisory_unlock_shared(7); RETURN name; END $$;
    CREATE VIEW guarded_ward AS SELECT code, guarded(name) AS name FROM ward";

/// Wards whose names SQLite never finds.
const ENDLESS: &str = "
    CREATE TABLE ward (code text PRIMARY KEY NOT NULL);
    INSERT INTO ward VALUES ('N'), ('W');
    CREATE VIEW guarded_ward AS SELECT code,
        (WITH RECURSIVE n(x) AS (SELECT 1 UNION ALL SELECT x + 1 FROM n) SELECT max(x) FROM n) AS name FROM ward";

const DESIGN: &str = "design \"Wards\"
table ward from guarded_ward \"ward {name}\"
    code key text
    show name
load ward by ward.code
question \"A ward\" ward.code = ?
";

/// The tool's own connections to a test's database.
const OURS: &str =
    "pg_stat_activity WHERE application_name = 'wurzsige' AND datname = current_database()";

/// A design's file in a folder.
fn written(folder: &Folder) -> String {
    let path = folder.path().join("wards.design");
    fs::write(&path, DESIGN).expect("a file");
    path.display().to_string()
}

/// A server's database in which nothing can be fetched while the gate is closed.
struct Guarded {
    lab: Lab,
    gate: Session,
}

impl Guarded {
    fn make() -> Guarded {
        let lab = Lab::postgres(GUARDED);
        let Lab::Postgres(name) = &lab else {
            unreachable!("it was just made");
        };
        let gate = Server::start().session(name);
        Guarded { lab, gate }
    }

    fn close(&mut self) {
        self.gate.run("DO 'BEGIN PERFORM pg_advisory_lock(7); END'");
    }

    fn open(&mut self) {
        self.gate
            .run("DO 'BEGIN PERFORM pg_advisory_unlock(7); END'");
    }

    /// Waits until the tool has so many connections of a kind.
    fn wait_for(&self, count: usize, kind: &str) {
        let query = format!("SELECT pid FROM {OURS} AND {kind}");
        while self.lab.rows(&query).len() != count {
            sleep(Duration::from_millis(10));
        }
    }

    /// Waits until the tool waits at the gate.
    fn wait_for_a_fetch(&self) {
        self.wait_for(1, "wait_event = 'advisory'");
    }
}

/// What a fetch that takes longer than a second shows, and that nothing of it is left behind the answer.
#[test]
fn a_long_fetch_is_shown() {
    let (mut guarded, folder, home) = (Guarded::make(), Folder::make(), Folder::make());
    let mut terminal = shell(&written(&folder), &guarded.lab, &home);
    replies(&mut terminal, "load ward N", "1 row in 0 rounds\r\n");
    guarded.close();
    terminal.types(&format!("load ward W{ENTER}"));
    let before = terminal.shows("reading for ");
    assert!(before.ends_with("\r\u{1b}[Kreading for "), "{before:?}");
    let what = terminal.shows("\r\u{1b}[K");
    let (seconds, what) = what.split_once(" s; ").expect("seconds");
    assert!(seconds.parse::<u64>().is_ok_and(|seconds| seconds > 0));
    assert_eq!(what, "1 row in 1 fetch so far\r\u{1b}[K");
    guarded.open();
    let answer = terminal.shows("1 row in 0 rounds\r\n");
    let (_, line) = answer
        .rsplit_once("\r\u{1b}[K")
        .expect("the line is taken away");
    assert_eq!(line, "1 row in 0 rounds\r\n");
    terminal.shows(PROMPT);
    terminal.types(CONTROL_D);
    assert_eq!(terminal.ends().1, 0);
}

/// Control and C ends the program in the middle of a fetch, and the server ends what it was doing for it, though the gate stays closed.
#[test]
fn an_interrupted_fetch_leaves_nothing_on_a_server() {
    let (mut guarded, folder, home) = (Guarded::make(), Folder::make(), Folder::make());
    let mut terminal = shell(&written(&folder), &guarded.lab, &home);
    guarded.close();
    terminal.types(&format!("load ward W{ENTER}"));
    guarded.wait_for_a_fetch();
    terminal.types(CONTROL_C);
    assert_eq!(terminal.ends().1, 130, "ended by the signal 2");
    guarded.wait_for(0, "true");
    assert_eq!(fs::read_dir(home.path()).expect("a folder").count(), 0);
}

/// The same on a file, which can be written to at once.
#[test]
fn an_interrupted_fetch_leaves_nothing_in_a_file() {
    let (lab, folder, home) = (Lab::sqlite(ENDLESS), Folder::make(), Folder::make());
    let before = fs::read(lab.file()).expect("the file");
    let mut terminal = shell(&written(&folder), &lab, &home);
    terminal.types(&format!("load ward W{ENTER}"));
    terminal.shows("reading for ");
    terminal.types(CONTROL_C);
    assert_eq!(terminal.ends().1, 130, "ended by the signal 2");
    assert_eq!(fs::read(lab.file()).expect("the file"), before);
    let beside = lab.file().parent().expect("a folder").to_path_buf();
    assert_eq!(fs::read_dir(beside).expect("a folder").count(), 1);
    lab.run("PRAGMA busy_timeout = 0; BEGIN EXCLUSIVE; INSERT INTO ward VALUES ('S'); COMMIT");
}

/// A server that goes away in the middle of a fetch: the snapshot has ended, so that no question is answered any more, and the shell goes on to say so.
#[test]
fn a_server_that_goes_away_in_the_middle() {
    let (mut guarded, folder, home) = (Guarded::make(), Folder::make(), Folder::make());
    let mut terminal = shell(&written(&folder), &guarded.lab, &home);
    replies(&mut terminal, "load ward N", "1 row in 0 rounds\r\n");
    guarded.close();
    terminal.types(&format!("load ward W{ENTER}"));
    guarded.wait_for_a_fetch();
    guarded
        .lab
        .run(&format!("SELECT pg_terminate_backend(pid) FROM {OURS}"));
    let refused = terminal.shows(PROMPT);
    assert!(
        refused.contains("refused") && refused.contains("connection"),
        "{refused}"
    );
    let gone = "server closed the connection";
    for (command, reply) in [
        ("ask \"A ward\" N", gone),
        ("load ward W", gone),
        (
            "held",
            "desk 0: ward N (1 row, of which 1 nobody else needs)",
        ),
        ("refresh", gone),
        ("held", "nothing is answered since the last refresh failed"),
    ] {
        replies(&mut terminal, command, reply);
    }
    terminal.types(CONTROL_D);
    assert_eq!(terminal.ends().1, 0);
    guarded.wait_for(0, "true");
}
