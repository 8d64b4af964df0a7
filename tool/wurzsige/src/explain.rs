//! `explain`: the page of a code.

use design::{nearest, Code};

/// The page, or what is wrong with the code.
pub fn page(code: &str) -> Result<String, String> {
    if let Some(code) = Code::named(code) {
        return Ok(code.page().text().to_string());
    }
    let names = Code::ALL.iter().map(|code| code.name());
    let help = match nearest(code, names) {
        Some(near) => format!("did you mean {near}?"),
        None => "`wurzsige explain` lists them all".into(),
    };
    Err(format!("there is no code `{code}`: {help}"))
}

/// All codes with their titles.
pub fn list() -> String {
    let lines = Code::ALL
        .iter()
        .map(|code| format!("{:4}  {}\n", code.name(), code.page().title()));
    lines.collect()
}
