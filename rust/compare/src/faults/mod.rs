//! Reads and writes of the desk program that are made to fail, or to come in
//! pieces.
//!
//! What has to hold: a write that fails ends the program with one line on
//! standard error, unless a signal ends it before, and what was written is the
//! front of the report. A read that fails gives no report and one line on standard
//! error. Reads and writes in pieces change nothing. The exit status is free in
//! these cases.

mod situations;

use std::io;
use std::os::unix::process::ExitStatusExt;
use std::process::ExitStatus;

use notation::assemble;

pub use situations::Program;

/// Linux's numbers.
const SIGPIPE: i32 = 13;
const SIGXFSZ: i32 = 25;

/// A script and its report.
#[derive(Clone, Debug)]
pub struct Subject {
    /// The script.
    pub script: Vec<u8>,
    /// The second implementation's report.
    pub report: Vec<u8>,
}

impl Subject {
    fn of(text: &str) -> Subject {
        let script = assemble(text).expect("a right text");
        let report = reference::report(&script).into_bytes();
        Subject { script, report }
    }

    /// A report of a few bytes.
    pub fn short() -> Subject {
        Subject::of("table 1\nfilling 0.0 1..9\nrow 0 7\nend\nrefer 0 7\nquery 0.0 = 7\n")
    }

    /// A report of over half a megabyte, so that no buffer takes it whole.
    pub fn long() -> Subject {
        let rows = "row 0 1\n".repeat(40) + &"row 1 1\n".repeat(50);
        let queries = "query 0.0 = 1 join 0 by 0\n".repeat(60);
        let design = "table 1\ntable 1\nconstraint 0.0 -> 1.0\nfilling 0.0 1..9\n";
        Subject::of(&format!("{design}{rows}end\nrefer 0 1\n{queries}"))
    }
}

/// How a program may end.
#[derive(Clone, Copy, Debug, PartialEq, Eq)]
pub enum Ending {
    /// With the whole report and nothing on standard error.
    Well,
    /// With the report's front, not all of it, and a line on standard error.
    Cut,
    /// The same, or by this signal.
    CutOrKilled(i32),
    /// Without a report, and with a line on standard error.
    Unread,
}

/// What was seen of a program.
#[derive(Clone, Debug)]
pub struct Seen {
    /// How it ended.
    pub status: ExitStatus,
    /// What it wrote on standard output.
    pub output: Vec<u8>,
    /// What it wrote on standard error.
    pub complaint: Vec<u8>,
}

impl Seen {
    /// Whether the program has ended as it should, or what is wrong.
    pub fn judge(&self, report: &[u8], ending: Ending) -> Result<(), String> {
        let Seen {
            status,
            output,
            complaint,
        } = self;
        if !report.starts_with(output) {
            return Err(format!("{} bytes, not the report's front", output.len()));
        }
        let whole = output.len() == report.len();
        let text = String::from_utf8_lossy(complaint);
        let one_line = text.ends_with('\n') && text.lines().count() == 1;
        match (ending, status.signal()) {
            (Ending::CutOrKilled(expected), Some(signal)) if signal == expected => Ok(()),
            (_, Some(signal)) => Err(format!("ended by signal {signal}")),
            (Ending::Well, None) if !whole => Err(format!("{} bytes only", output.len())),
            (Ending::Well, None) if text.is_empty() => Ok(()),
            (Ending::Well, None) => Err(format!("complained: {text}")),
            (_, None) if whole => Err("the whole report".into()),
            (Ending::Unread, None) if !output.is_empty() => Err("a report".into()),
            (_, None) if one_line => Ok(()),
            (_, None) => Err(format!("no line on standard error, but {text:?}")),
        }
    }
}

/// A situation that a program is put into.
pub struct Fault {
    /// What it is.
    pub name: &'static str,
    /// How the program may end.
    pub ending: Ending,
    /// On which script.
    pub subject: Subject,
    run: fn(&Program, &Subject) -> io::Result<Seen>,
}

impl Fault {
    /// Puts a program into the situation, and says what is wrong with it then.
    pub fn test(&self, program: &Program) -> Result<(), String> {
        let seen = (self.run)(program, &self.subject);
        let seen = seen.map_err(|error| error.to_string())?;
        seen.judge(&self.subject.report, self.ending)
    }
}

/// All situations.
pub fn faults() -> Vec<Fault> {
    let (short, long) = (Subject::short(), Subject::long());
    let fault = |name, ending, subject: &Subject, run| Fault {
        name,
        ending,
        subject: subject.clone(),
        run,
    };
    use situations::*;
    use Ending::{Cut, CutOrKilled, Unread, Well};
    vec![
        fault("nothing fails, a short report", Well, &short, plain),
        fault("nothing fails, a long report", Well, &long, plain),
        fault("input in two pieces", Well, &long, slow_input),
        fault("a full device, a short report", Cut, &short, full_device),
        fault("a full device, a long report", Cut, &long, full_device),
        fault("output closed", Cut, &short, closed_output),
        fault(
            "a closed pipe, a short report",
            CutOrKilled(SIGPIPE),
            &short,
            closed_pipe,
        ),
        fault(
            "a closed pipe, SIGPIPE ignored",
            Cut,
            &short,
            closed_pipe_ignored,
        ),
        fault(
            "a pipe closed later",
            CutOrKilled(SIGPIPE),
            &long,
            pipe_closed_later,
        ),
        fault(
            "a pipe closed later, SIGPIPE ignored",
            Cut,
            &long,
            pipe_closed_later_ignored,
        ),
        fault("a file size limit", CutOrKilled(SIGXFSZ), &long, file_size),
        fault(
            "a file size limit, SIGXFSZ ignored",
            Cut,
            &long,
            file_size_ignored,
        ),
        fault(
            "non-blocking output, a late reader",
            Cut,
            &long,
            late_reader,
        ),
        fault("a directory as input", Unread, &short, directory),
        fault("input closed", Unread, &short, closed_input),
    ]
}

#[cfg(test)]
mod tests {
    use super::*;

    fn judged(status: i32, output: &str, complaint: &str, ending: Ending) -> Result<(), String> {
        let seen = Seen {
            status: ExitStatus::from_raw(status),
            output: output.into(),
            complaint: complaint.into(),
        };
        seen.judge(b"report\n", ending)
    }

    #[test]
    fn the_whole_report_is_well_and_nothing_less() {
        assert!(judged(0, "report\n", "", Ending::Well).is_ok());
        assert!(judged(0, "report", "", Ending::Well).is_err());
        assert!(judged(0, "report\n", "oh\n", Ending::Well).is_err());
        assert!(judged(0, "report\n", "oh\n", Ending::Cut).is_err());
    }

    #[test]
    fn a_report_that_is_cut_asks_for_one_line() {
        assert!(judged(0, "rep", "oh\n", Ending::Cut).is_ok());
        assert!(judged(0, "rep", "", Ending::Cut).is_err());
        assert!(judged(0, "rep", "oh\nno\n", Ending::Cut).is_err());
        assert!(judged(0, "rep", "oh", Ending::Cut).is_err());
        assert!(judged(0, "rap", "oh\n", Ending::Cut).is_err());
    }

    #[test]
    fn only_the_signal_that_was_asked_for_will_do() {
        assert!(judged(SIGPIPE, "rep", "", Ending::CutOrKilled(SIGPIPE)).is_ok());
        assert!(judged(SIGPIPE, "rap", "", Ending::CutOrKilled(SIGPIPE)).is_err());
        assert!(judged(SIGPIPE, "rep", "", Ending::Cut).is_err());
        assert!(judged(SIGXFSZ, "rep", "", Ending::CutOrKilled(SIGPIPE)).is_err());
    }

    #[test]
    fn what_was_not_read_has_no_report() {
        assert!(judged(0, "", "oh\n", Ending::Unread).is_ok());
        assert!(judged(0, "r", "oh\n", Ending::Unread).is_err());
        assert!(judged(0, "", "", Ending::Unread).is_err());
    }

    #[test]
    fn reports_are_as_short_and_long_as_they_are_called() {
        assert!(Subject::short().report.len() < 100);
        assert!(Subject::long().report.len() > 500_000);
    }
}
