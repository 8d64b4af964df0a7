//! A draft as text: a design that reads as it is, with its links and notes as comments.

use design::{link_line, load_line, print, Design, Source, SourceKind};

use super::{Draft, Offer};

/// The text of a draft, which names the database that it is from.
pub(crate) fn text(mut draft: Draft, title: &str, place: &Source) -> String {
    draft.design.title = plain(title);
    match has_password(place) {
        true => draft.notes.insert(
            0,
            "the source is left out, since it has a password: write `source postgres \"service=NAME\"`, or give --source".into(),
        ),
        false => draft.design.source = Some(place.clone()),
    }
    let loads = std::mem::take(&mut draft.design.loads);
    let mut blocks = vec![head(&draft), print(&draft.design)];
    blocks.push(offers(&draft.design, &draft.offers));
    let loads: Vec<String> = loads
        .iter()
        .map(|load| load_line(&draft.design, load) + "\n")
        .collect();
    if !loads.is_empty() {
        blocks.push(format!(
            "# ---- Loads: what somebody at the desk can ask for by name; here by each table's key.\n\n{}",
            loads.concat()
        ));
    }
    blocks.push(rest(draft.rest));
    let notes: Vec<String> = draft
        .notes
        .iter()
        .map(|note| format!("# note: {}\n", plain(note)))
        .collect();
    blocks.push(notes.concat());
    blocks.retain(|block| !block.is_empty());
    blocks.join("\n")
}

/// A text on one line.
fn plain(text: &str) -> String {
    let words = text.split(|character: char| character.is_whitespace() || character.is_control());
    words
        .filter(|word| !word.is_empty())
        .collect::<Vec<_>>()
        .join(" ")
}

/// Whether a conninfo has a password in it, which has no place in a file.
fn has_password(place: &Source) -> bool {
    let uri = place.place.split_once("://").map(|(_, rest)| rest);
    let user = uri.and_then(|rest| rest.split(['/', '?']).next());
    let in_uri = user
        .and_then(|user| user.rsplit_once('@'))
        .is_some_and(|(user, _)| user.contains(':'));
    place.kind == SourceKind::Postgres && (in_uri || place.place.contains("password"))
}

fn head(draft: &Draft) -> String {
    let tables = draft.design.tables.len() + draft.rest.tables.len();
    let counted = |count: usize, one: &str, more: &str| match count {
        1 => format!("1 {one}"),
        _ => format!("{count} {more}"),
    };
    let (foreign, several) = draft.foreign;
    let several = match several {
        0 => String::new(),
        several => format!(", {several} of several columns"),
    };
    format!(
        "# {}, {}{several}. Links are drawn by you: for each foreign key both ways are offered;\n# take away the `#` from those that a row shall bring along.\n",
        counted(tables, "table", "tables"),
        counted(foreign, "foreign key", "foreign keys"),
    )
}

/// The links as comments, one below the other.
fn offers(design: &Design, offers: &[Offer]) -> String {
    if offers.is_empty() {
        return String::new();
    }
    let lines: Vec<String> = offers
        .iter()
        .map(|offer| link_line(design, &offer.link))
        .collect();
    let width = lines
        .iter()
        .map(|line| line.chars().count())
        .max()
        .unwrap_or(0);
    let lines = lines
        .iter()
        .zip(offers)
        .map(|(line, offer)| format!("# {line:width$}  # {}\n", plain(&offer.remark)));
    format!("# ---- Links: what a row brings along. The words are read to physicians: better them.\n\n{}", lines.collect::<String>())
}

/// The tables without room, as comments.
fn rest(rest: Design) -> String {
    if rest.tables.is_empty() {
        return String::new();
    }
    let text = print(&rest);
    let lines = text.lines().filter(|line| !line.starts_with("design "));
    let lines = lines.skip_while(|line| line.is_empty());
    let lines = lines.map(|line| format!("# {line}").trim_end().to_string() + "\n");
    format!(
        "# ---- Tables that a design has no room for beside those above.\n\n{}",
        lines.collect::<String>()
    )
}
