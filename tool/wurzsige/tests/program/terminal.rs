//! The program on a terminal: `script`, which every Debian has, gives it one, and passes on what is typed and what is shown.

use std::io::{Read, Write};
use std::process::{Child, ChildStdin, Command, Stdio};
use std::sync::mpsc::{channel, Receiver};
use std::thread::spawn;
use std::time::Duration;

/// How long something is waited for that has to come, however slow the machine is.
const PATIENCE: Duration = Duration::from_secs(180);

/// The keys.
pub const ENTER: &str = "\r";
pub const TAB: &str = "\t";
pub const UP: &str = "\u{1b}[A";
pub const CONTROL_C: &str = "\u{3}";
pub const CONTROL_D: &str = "\u{4}";

/// A program on a terminal of its own.
pub struct Terminal {
    script: Child,
    keys: ChildStdin,
    pieces: Receiver<Vec<u8>>,
    shown: String,
}

impl Terminal {
    /// Runs the program in the project's folder, at home in a folder.
    pub fn run(arguments: &[&str], home: &std::path::Path) -> Terminal {
        let quoted = |word: &&str| format!("'{}'", word.replace('\'', "'\\''"));
        let words = [env!("CARGO_BIN_EXE_wurzsige")];
        let words = words.iter().chain(arguments).map(quoted);
        let line = format!("exec {}", words.collect::<Vec<_>>().join(" "));
        let mut script = Command::new("script")
            .args(["--quiet", "--return", "--flush", "--command", &line])
            .arg("/dev/null")
            .current_dir(super::top())
            .env("HOME", home)
            .env("SHELL", "/bin/sh")
            .env("TERM", "xterm")
            .env_remove("NO_COLOR")
            .stdin(Stdio::piped())
            .stdout(Stdio::piped())
            .spawn()
            .expect("script");
        let mut output = script.stdout.take().expect("its output");
        let (sender, pieces) = channel();
        spawn(move || {
            let mut buffer = [0; 4096];
            while let Ok(length @ 1..) = output.read(&mut buffer) {
                if sender.send(buffer[..length].to_vec()).is_err() {
                    break;
                }
            }
        });
        Terminal {
            keys: script.stdin.take().expect("its input"),
            script,
            pieces,
            shown: String::new(),
        }
    }

    /// Types keys.
    pub fn types(&mut self, keys: &str) {
        self.keys.write_all(keys.as_bytes()).expect("it reads keys");
        self.keys.flush().expect("it reads keys");
    }

    /// Waits until a text is shown, and gives what was shown since the last one up to its end.
    pub fn shows(&mut self, text: &str) -> String {
        loop {
            if let Some(at) = self.shown.find(text) {
                let rest = self.shown.split_off(at + text.len());
                return std::mem::replace(&mut self.shown, rest);
            }
            match self.pieces.recv_timeout(PATIENCE) {
                Ok(piece) => self.shown += &String::from_utf8_lossy(&piece),
                Err(why) => panic!("{why}; no `{text}` in `{}`", self.shown),
            }
        }
    }

    /// Waits until the program has ended, and gives what was shown since, and its status: 128 and the signal's number, if one ended it.
    pub fn ends(mut self) -> (String, i32) {
        while let Ok(piece) = self.pieces.recv_timeout(PATIENCE) {
            self.shown += &String::from_utf8_lossy(&piece);
        }
        let status = self.script.wait().expect("it ends").code();
        (std::mem::take(&mut self.shown), status.expect("a status"))
    }
}

impl Drop for Terminal {
    fn drop(&mut self) {
        // the program ends with its terminal
        let _ = self.script.kill();
        let _ = self.script.wait();
    }
}
