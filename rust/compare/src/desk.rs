//! The desk program under comparison, run as a child process.

use std::fmt;
use std::io::{self, Read, Write};
use std::os::unix::process::ExitStatusExt;
use std::path::PathBuf;
use std::process::{Child, Command, ExitStatus, Stdio};
use std::sync::mpsc;
use std::thread;
use std::time::Duration;

/// What came back for a script.
#[derive(Clone, Debug, PartialEq, Eq)]
pub enum Reply {
    /// The program ended well, with this on standard output and nothing on
    /// standard error.
    Report(Vec<u8>),
    /// The program ended well, but with this on standard error.
    Complaint(Vec<u8>),
    /// The program ended with this exit status, which isn't 0.
    Failed(i32),
    /// A signal ended the program.
    Killed(i32),
    /// The program hadn't ended within its time.
    OutOfTime,
}

impl Reply {
    /// The report of a program that ended well.
    pub fn report(&self) -> Option<&[u8]> {
        match self {
            Reply::Report(report) => Some(report),
            _ => None,
        }
    }
}

impl fmt::Display for Reply {
    fn fmt(&self, out: &mut fmt::Formatter<'_>) -> fmt::Result {
        match self {
            Reply::Report(report) => write!(out, "{}", String::from_utf8_lossy(report)),
            Reply::Complaint(complaint) => {
                let complaint = String::from_utf8_lossy(complaint);
                writeln!(out, "(on standard error: {})", complaint.trim_end())
            }
            Reply::Failed(status) => writeln!(out, "(ended with status {status})"),
            Reply::Killed(signal) => writeln!(out, "(ended by signal {signal})"),
            Reply::OutOfTime => writeln!(out, "(not ended within its time)"),
        }
    }
}

/// A desk program.
#[derive(Clone, Debug)]
pub struct Program {
    /// Its executable.
    pub path: PathBuf,
    /// How long it may take for one script.
    pub time_limit: Duration,
}

impl Program {
    /// Gives the program a script on standard input and collects what it
    /// prints.
    pub fn reply(&self, script: &[u8]) -> io::Result<Reply> {
        let mut child = Command::new(&self.path)
            .stdin(Stdio::piped())
            .stdout(Stdio::piped())
            .stderr(Stdio::piped())
            .spawn()?;
        self.converse(&mut child, script)
    }

    /// Writes and reads at once: a program that prints while it reads would
    /// otherwise wait for us as we wait for it.
    fn converse(&self, child: &mut Child, script: &[u8]) -> io::Result<Reply> {
        let stdin = child.stdin.take();
        let stdout = child.stdout.take();
        let stderr = child.stderr.take();
        let (sender, receiver) = mpsc::channel();
        thread::scope(|scope| {
            // A program may refuse a script without reading all of it, so a
            // broken pipe is no failure.
            scope.spawn(move || stdin.map(|mut pipe| pipe.write_all(script)));
            let complaint = scope.spawn(move || read_all(stderr));
            scope.spawn(move || sender.send(read_all(stdout)));
            match receiver.recv_timeout(self.time_limit) {
                Ok(report) => {
                    let status = child.wait()?;
                    let complaint = complaint.join().expect("reading doesn't panic");
                    Ok(reply(status, report?, complaint?))
                }
                Err(_) => {
                    child.kill()?;
                    child.wait()?;
                    Ok(Reply::OutOfTime)
                }
            }
        })
    }
}

fn reply(status: ExitStatus, report: Vec<u8>, complaint: Vec<u8>) -> Reply {
    match (status.signal(), status.code()) {
        (Some(signal), _) => Reply::Killed(signal),
        (None, Some(0)) if complaint.is_empty() => Reply::Report(report),
        (None, Some(0)) => Reply::Complaint(complaint),
        (None, code) => Reply::Failed(code.unwrap_or(-1)),
    }
}

fn read_all(pipe: Option<impl Read>) -> io::Result<Vec<u8>> {
    let mut bytes = Vec::new();
    if let Some(mut pipe) = pipe {
        pipe.read_to_end(&mut bytes)?;
    }
    Ok(bytes)
}
