//! The situations, and how a program is put into them. A shell does most of that,
//! so that no `unsafe` is needed.

use std::fs::{self, File, OpenOptions};
use std::io::{self, Read, Write};
use std::os::fd::AsRawFd;
use std::os::unix::fs::OpenOptionsExt;
use std::path::{Path, PathBuf};
use std::process::{self, Child, Command, ExitStatus, Stdio};
use std::thread;
use std::time::{Duration, Instant};

use super::{Seen, Subject};

/// How long the program may take in one situation.
const TIME_LIMIT: Duration = Duration::from_secs(30);

/// How long a slow reader or writer waits.
const PAUSE: Duration = Duration::from_millis(200);

/// Linux's number.
const O_NONBLOCK: i32 = 0o4000;

/// The program that is tested.
pub struct Program {
    /// Its executable.
    pub path: PathBuf,
    /// A directory for files.
    pub scratch: PathBuf,
}

impl Program {
    /// The program itself.
    fn bare(&self) -> Command {
        let mut command = Command::new(&self.path);
        command.stdin(Stdio::piped()).stderr(Stdio::piped());
        command
    }

    /// The program as a shell starts it, with `$0` for its path.
    fn in_shell(&self, body: &str) -> Command {
        let mut command = Command::new("/bin/sh");
        command.args(["-c", body]).arg(&self.path);
        command.stdin(Stdio::piped()).stderr(Stdio::piped());
        command
    }
}

/// Starts a command and writes the script to it, at once.
fn start(command: &mut Command, script: &[u8]) -> io::Result<Child> {
    let mut child = command.spawn()?;
    if let Some(mut input) = child.stdin.take() {
        // The program may end before it has read all.
        let _ = input.write_all(script);
    }
    Ok(child)
}

/// Waits for a program, and ends it if it takes too long.
fn wait(child: &mut Child) -> io::Result<ExitStatus> {
    let start = Instant::now();
    loop {
        if let Some(status) = child.try_wait()? {
            return Ok(status);
        }
        if start.elapsed() > TIME_LIMIT {
            child.kill()?;
            child.wait()?;
            return Err(io::Error::new(io::ErrorKind::TimedOut, "not ended in time"));
        }
        thread::sleep(Duration::from_millis(1));
    }
}

/// What is seen of a program whose output was found elsewhere.
fn seen(mut child: Child, output: impl FnOnce() -> io::Result<Vec<u8>>) -> io::Result<Seen> {
    let status = wait(&mut child)?;
    let mut complaint = Vec::new();
    if let Some(mut pipe) = child.stderr.take() {
        pipe.read_to_end(&mut complaint)?;
    }
    Ok(Seen {
        status,
        output: output()?,
        complaint,
    })
}

/// Reads a program's standard output to its end.
fn read_output(child: &mut Child) -> io::Result<Vec<u8>> {
    let mut output = Vec::new();
    if let Some(mut pipe) = child.stdout.take() {
        pipe.read_to_end(&mut output)?;
    }
    Ok(output)
}

fn nothing() -> io::Result<Vec<u8>> {
    Ok(Vec::new())
}

/// Nothing fails.
pub fn plain(program: &Program, subject: &Subject) -> io::Result<Seen> {
    let mut child = start(program.bare().stdout(Stdio::piped()), &subject.script)?;
    let output = read_output(&mut child)?;
    seen(child, || Ok(output))
}

/// The script comes in two pieces.
pub fn slow_input(program: &Program, subject: &Subject) -> io::Result<Seen> {
    let mut child = program.bare().stdout(Stdio::piped()).spawn()?;
    if let Some(mut input) = child.stdin.take() {
        let (one, other) = subject.script.split_at(subject.script.len() / 3);
        input.write_all(one)?;
        input.flush()?;
        thread::sleep(PAUSE);
        input.write_all(other)?;
    }
    let output = read_output(&mut child)?;
    seen(child, || Ok(output))
}

/// Standard output is a device that takes nothing.
pub fn full_device(program: &Program, subject: &Subject) -> io::Result<Seen> {
    let full = OpenOptions::new().write(true).open("/dev/full")?;
    let child = start(program.bare().stdout(full), &subject.script)?;
    seen(child, nothing)
}

/// Standard output is closed.
pub fn closed_output(program: &Program, subject: &Subject) -> io::Result<Seen> {
    let mut command = program.in_shell("exec \"$0\" >&-");
    let child = start(&mut command, &subject.script)?;
    seen(child, nothing)
}

/// Standard output is a pipe that nobody reads.
pub fn closed_pipe(program: &Program, subject: &Subject) -> io::Result<Seen> {
    closed_pipe_of(program.bare(), subject)
}

/// The same, and SIGPIPE is ignored.
pub fn closed_pipe_ignored(program: &Program, subject: &Subject) -> io::Result<Seen> {
    closed_pipe_of(program.in_shell("trap '' PIPE; exec \"$0\""), subject)
}

fn closed_pipe_of(mut command: Command, subject: &Subject) -> io::Result<Seen> {
    let (reader, writer) = io::pipe()?;
    drop(reader);
    let child = start(command.stdout(writer), &subject.script)?;
    seen(child, nothing)
}

/// Standard output is a pipe that is closed when some of it has been read.
pub fn pipe_closed_later(program: &Program, subject: &Subject) -> io::Result<Seen> {
    pipe_closed_later_of(program.bare(), subject)
}

/// The same, and SIGPIPE is ignored.
pub fn pipe_closed_later_ignored(program: &Program, subject: &Subject) -> io::Result<Seen> {
    pipe_closed_later_of(program.in_shell("trap '' PIPE; exec \"$0\""), subject)
}

fn pipe_closed_later_of(mut command: Command, subject: &Subject) -> io::Result<Seen> {
    let mut child = start(command.stdout(Stdio::piped()), &subject.script)?;
    let mut output = vec![0; 1_000];
    if let Some(mut pipe) = child.stdout.take() {
        pipe.read_exact(&mut output)?;
    }
    seen(child, || Ok(output))
}

/// Standard output is a file that may not grow so long.
pub fn file_size(program: &Program, subject: &Subject) -> io::Result<Seen> {
    limited_file(program, subject, "ulimit -f 100; exec \"$0\"")
}

/// The same, and SIGXFSZ is ignored.
pub fn file_size_ignored(program: &Program, subject: &Subject) -> io::Result<Seen> {
    limited_file(program, subject, "trap '' XFSZ; ulimit -f 100; exec \"$0\"")
}

fn limited_file(program: &Program, subject: &Subject, body: &str) -> io::Result<Seen> {
    let path = program.scratch.join(format!("faults-{}", process::id()));
    let file = File::create(&path)?;
    let mut command = program.in_shell(body);
    let child = start(command.stdout(file), &subject.script)?;
    seen(child, || {
        let output = fs::read(&path)?;
        fs::remove_file(&path)?;
        Ok(output)
    })
}

/// The pipe is opened again for writing without blocking, and read only when the
/// program has ended, or has had time enough to.
pub fn late_reader(program: &Program, subject: &Subject) -> io::Result<Seen> {
    let (mut reader, writer) = io::pipe()?;
    let path = format!("/proc/self/fd/{}", writer.as_raw_fd());
    let mut options = OpenOptions::new();
    let unblocked = options.write(true).custom_flags(O_NONBLOCK).open(path)?;
    drop(writer);
    let mut command = program.bare();
    let mut child = start(command.stdout(unblocked), &subject.script)?;
    // The command keeps the pipe open for writing.
    drop(command);
    for _ in 0..10 {
        if child.try_wait()?.is_none() {
            thread::sleep(PAUSE);
        }
    }
    let mut output = Vec::new();
    reader.read_to_end(&mut output)?;
    seen(child, || Ok(output))
}

/// Standard input is a directory.
pub fn directory(program: &Program, _: &Subject) -> io::Result<Seen> {
    let directory = File::open(Path::new("/"))?;
    let mut command = program.bare();
    unread(command.stdin(directory))
}

/// Standard input is closed.
pub fn closed_input(program: &Program, _: &Subject) -> io::Result<Seen> {
    unread(&mut program.in_shell("exec \"$0\" <&-"))
}

fn unread(command: &mut Command) -> io::Result<Seen> {
    let mut child = command.stdout(Stdio::piped()).spawn()?;
    let output = read_output(&mut child)?;
    seen(child, || Ok(output))
}
