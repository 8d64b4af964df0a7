//! Whether the library belongs to this crate.

use crate::parts;

/// The version of this crate and of the library that it is for: 65,536 times the first
/// number, 256 times the second, and the third.
///
/// ```
/// assert_eq!(wurzsige_sys::VERSION, 0x00_02_00); // 0.2.0
/// ```
pub const VERSION: u32 = 512;

/// The version of the library that is linked.
///
/// [`Memory`](crate::Memory)'s functions look at it where they can be called first, and
/// refuse with [`cause::OTHER_VERSION`](crate::cause::OTHER_VERSION) if it is another one
/// than [`VERSION`].
///
/// ```
/// assert_eq!(wurzsige_sys::library_version(), wurzsige_sys::VERSION);
/// ```
pub fn library_version() -> u32 {
    // SAFETY: it takes nothing and gives a number.
    unsafe { parts::wurzsige_version() }
}

#[cfg(test)]
mod tests {
    use std::string::String;

    #[test]
    fn the_package_has_this_version() {
        let parts = env!("CARGO_PKG_VERSION").split('.');
        let number = |part: &str| part.parse::<u32>().expect("a number");
        let number = parts
            .map(number)
            .fold(0, |version, part| 256 * version + part);
        assert_eq!(number, super::VERSION);
    }

    #[test]
    fn the_changes_begin_with_this_version() {
        let changes = include_str!("../CHANGELOG.md");
        let newest = changes.lines().find_map(|line| line.strip_prefix("## "));
        assert_eq!(
            newest.map(String::from).as_deref(),
            Some(env!("CARGO_PKG_VERSION"))
        );
    }
}
