//! Says where the proved desk's static library is, if it is to be linked.

use std::env;
use std::path::{Path, PathBuf};
use std::process::Command;

fn main() {
    println!("cargo:rerun-if-env-changed=PROVED_DESK");
    println!("cargo:rerun-if-env-changed=PKG_CONFIG");
    println!("cargo:rerun-if-env-changed=PKG_CONFIG_PATH");
    if env::var_os("CARGO_FEATURE_PROVED").is_none() {
        return;
    }
    // Pages are built and programs checked without the library, so that its absence is no
    // error yet; where it is needed the compiler doesn't find it, and ends.
    println!("cargo:rustc-link-lib=static=wurzsige");
    match folder() {
        Ok(folder) => {
            let folder = folder.display();
            println!("cargo:rerun-if-changed={folder}/libwurzsige.a");
            println!("cargo:rustc-link-search=native={folder}");
        }
        Err(why) => println!("cargo:warning={why}"),
    }
}

/// The folder of the library, or what to do.
fn folder() -> Result<PathBuf, String> {
    if let Some(folder) = env::var_os("PROVED_DESK") {
        let folder = PathBuf::from(folder);
        return match has_library(&folder) {
            true => Ok(folder),
            false => Err(format!(
                "PROVED_DESK is {}, where no libwurzsige.a is",
                folder.display()
            )),
        };
    }
    installed().ok_or_else(|| {
        let version = env!("CARGO_PKG_VERSION");
        format!(
            "libwurzsige.a, version {version}, isn't found: set PROVED_DESK to its folder, or \
             PKG_CONFIG_PATH to where it is installed, for it to be linked"
        )
    })
}

/// Where pkg-config finds the library of this version.
fn installed() -> Option<PathBuf> {
    let program = env::var_os("PKG_CONFIG").unwrap_or_else(|| "pkg-config".into());
    let this = concat!("wurzsige = ", env!("CARGO_PKG_VERSION"));
    let there = Command::new(&program).args(["--exists", this]).status();
    if !there.ok()?.success() {
        return None;
    }
    let found = Command::new(&program)
        .args(["--variable=libdir", "wurzsige"])
        .output();
    let folder = String::from_utf8(found.ok()?.stdout).ok()?;
    let folder = PathBuf::from(folder.trim_end());
    has_library(&folder).then_some(folder)
}

fn has_library(folder: &Path) -> bool {
    folder.join("libwurzsige.a").is_file()
}
