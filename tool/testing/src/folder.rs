//! Temporary folders.

use std::path::{Path, PathBuf};
use std::sync::atomic::{AtomicUsize, Ordering};
use std::{env, fs, process};

static MADE: AtomicUsize = AtomicUsize::new(0);

/// A folder of a test's own, which goes with it.
pub struct Folder(PathBuf);

impl Folder {
    /// Makes one.
    pub fn make() -> Folder {
        let path = fresh();
        fs::create_dir(&path).expect("a temporary folder");
        Folder(path)
    }

    /// Where it is.
    pub fn path(&self) -> &Path {
        &self.0
    }
}

impl Drop for Folder {
    fn drop(&mut self) {
        // what can't be removed is left to the machine
        let _ = fs::remove_dir_all(&self.0);
    }
}

/// A path that nothing has yet; short, since a unix socket's is at most 107 bytes long.
pub(crate) fn fresh() -> PathBuf {
    let number = MADE.fetch_add(1, Ordering::Relaxed);
    env::temp_dir().join(format!("wurzsige-{}-{number}", process::id()))
}
