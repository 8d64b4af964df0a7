//! A design's file: its name, its text and what was read of it.

use std::io::Read;
use std::path::Path;
use std::{fs, io};

use design::{read, text, Design, NotText, Position, Reading, Span};

/// The name that stands for standard input.
const STANDARD_INPUT: &str = "-";

/// A file that was read.
pub struct File {
    /// Its name, as it was given.
    pub name: String,
    /// Its text.
    pub text: String,
    /// What was read of it.
    pub reading: Reading,
}

/// Why there is no text.
pub enum Unreadable {
    /// The file can't be read.
    Failed(String),
    /// It isn't text.
    NotText(String, NotText),
}

impl File {
    /// Reads the file at a path, or standard input for `-`.
    pub fn open(path: &Path) -> Result<File, Unreadable> {
        let (name, bytes) = match path.to_str() {
            Some(STANDARD_INPUT) => ("standard input".to_string(), standard_input()),
            _ => (path.display().to_string(), fs::read(path)),
        };
        let bytes = bytes.map_err(|error| Unreadable::Failed(format!("{name}: {error}")))?;
        match text(&bytes) {
            Ok(text) => Ok(File::new(name, text)),
            Err(not_text) => Err(Unreadable::NotText(name, not_text)),
        }
    }

    /// Reads a text.
    pub fn new(name: String, text: &str) -> File {
        File {
            reading: read(text),
            text: text.to_string(),
            name,
        }
    }

    /// The design, if it has no error.
    pub fn design(&self) -> Option<&Design> {
        self.reading.design.as_ref()
    }

    /// The line of a place.
    pub fn line(&self, span: &Span) -> usize {
        Position::of(&self.text, span.start).line
    }

    /// The line of a link.
    pub fn link_line(&self, link: usize) -> usize {
        self.line(&self.reading.spans.links[link].0)
    }
}

fn standard_input() -> io::Result<Vec<u8>> {
    let mut bytes = Vec::new();
    io::stdin().read_to_end(&mut bytes)?;
    Ok(bytes)
}
