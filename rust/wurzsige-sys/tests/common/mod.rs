//! What a C compiler makes of the header.

use std::path::{Path, PathBuf};
use std::process::{self, Command};
use std::{env, fs};

/// The folder of the headers.
pub fn include() -> PathBuf {
    Path::new(env!("CARGO_MANIFEST_DIR")).join("include")
}

/// The lines that a program in C prints. Nothing is linked: it calls none of the library's
/// functions.
pub fn printed_by_c(name: &str, program: &str) -> Vec<String> {
    let folder = env::temp_dir().join(format!("wurzsige-{name}-{}", process::id()));
    fs::create_dir_all(&folder).expect("a folder");
    let (source, binary) = (folder.join("program.c"), folder.join("program"));
    fs::write(&source, program).expect("a source");
    let mut cc = Command::new("cc");
    // Optimised, so that the header's functions are left out where nothing calls them.
    cc.args(["-std=c11", "-O1", "-I"]).arg(include());
    let compiled = cc.arg(&source).arg("-o").arg(&binary).output();
    let compiled = compiled.expect("a C compiler");
    let errors = String::from_utf8_lossy(&compiled.stderr);
    assert!(compiled.status.success(), "{errors}");
    let printed = Command::new(&binary).output().expect("a program").stdout;
    fs::remove_dir_all(&folder).expect("an end");
    let printed = String::from_utf8(printed).expect("text");
    printed.lines().map(str::to_string).collect()
}
