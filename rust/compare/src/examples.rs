//! The example scripts, each with its report: `NAME.desk` in the notation, and
//! `NAME.report` beside it.

use std::fs;
use std::io;
use std::path::{Path, PathBuf};

use notation::assemble;

/// An example.
#[derive(Clone, Debug)]
pub struct Example {
    /// The file with the script.
    pub path: PathBuf,
    /// The script.
    pub script: Vec<u8>,
    /// The report.
    pub report: Vec<u8>,
}

/// The examples of a directory, of which there has to be one at least.
pub fn examples(directory: &Path) -> io::Result<Vec<Example>> {
    let mut paths = Vec::new();
    for entry in fs::read_dir(directory)? {
        let path = entry?.path();
        if path
            .extension()
            .is_some_and(|extension| extension == "desk")
        {
            paths.push(path);
        }
    }
    paths.sort();
    if paths.is_empty() {
        let message = format!("no examples in {}", directory.display());
        return Err(io::Error::new(io::ErrorKind::NotFound, message));
    }
    paths.into_iter().map(example).collect()
}

fn example(path: PathBuf) -> io::Result<Example> {
    let script = assemble(&fs::read_to_string(&path)?).map_err(|error| {
        let message = format!("{}: {error}", path.display());
        io::Error::new(io::ErrorKind::InvalidData, message)
    })?;
    let report = fs::read(path.with_extension("report"))?;
    Ok(Example {
        path,
        script,
        report,
    })
}
