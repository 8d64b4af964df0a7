//! What a browser may do with the page: use the one style sheet and run the one script that the program has put in, and nothing else. So no name or value could
//! become a script even if it weren't escaped.

use sha2::{Digest, Sha256};

/// The page's Content-Security-Policy.
pub fn policy(style: &str, script: &str) -> String {
    format!(
        "default-src 'none'; style-src '{}'; script-src '{}'; base-uri 'none'; form-action 'none'",
        hash(style),
        hash(script)
    )
}

/// The sign by which a browser knows a text.
fn hash(text: &str) -> String {
    format!("sha256-{}", base64::encode(Sha256::digest(text.as_bytes())))
}

#[cfg(test)]
mod tests {
    use super::hash;

    /// The example of the recommendation on Content-Security-Policy, level 3.
    #[test]
    fn a_text_has_the_sign_that_browsers_give_it() {
        assert_eq!(
            hash("alert('Hello, world.');"),
            "sha256-qznLcsROx4GACP2dm0UCKCzCG+HiZ1guq6ZZDob/Tng="
        );
    }
}
