//! Markup that can't be broken by the names and values in it: tags and attributes are the program's own, everything else is escaped.

use crate::unseen::written_out;

/// A piece of HTML.
#[derive(Clone, Debug, Default, PartialEq, Eq)]
pub struct Markup(String);

impl Markup {
    /// Text, escaped.
    pub fn text(text: &str) -> Markup {
        Markup(escaped(text))
    }

    /// A name or value of the design or the database: text that is set apart, so that its direction of writing stays its own.
    pub fn name(text: &str) -> Markup {
        element("bdi", [Markup::text(text)])
    }

    /// Markup that was made elsewhere, by a program that escapes what is in it.
    pub fn made(markup: impl Into<String>) -> Markup {
        Markup(markup.into())
    }

    /// The HTML.
    pub fn into_string(self) -> String {
        self.0
    }
}

/// One piece behind the other.
impl FromIterator<Markup> for Markup {
    fn from_iter<T: IntoIterator<Item = Markup>>(pieces: T) -> Markup {
        Markup(pieces.into_iter().map(|piece| piece.0).collect())
    }
}

/// Plain text of the program's own may have names in it: it is escaped like them.
impl From<&str> for Markup {
    fn from(text: &str) -> Markup {
        Markup::text(text)
    }
}

impl From<String> for Markup {
    fn from(text: String) -> Markup {
        Markup::text(&text)
    }
}

/// An element around pieces.
pub fn element(tag: &'static str, inside: impl IntoIterator<Item = Markup>) -> Markup {
    with(tag, &[], inside)
}

/// An element with attributes around pieces.
pub fn with(
    tag: &'static str,
    attributes: &[(&'static str, &str)],
    inside: impl IntoIterator<Item = Markup>,
) -> Markup {
    let mut html = opening(tag, attributes);
    html.extend(inside.into_iter().map(|piece| piece.0));
    html += &format!("</{tag}>");
    Markup(html)
}

/// An element that has nothing inside and no end.
pub fn void(tag: &'static str, attributes: &[(&'static str, &str)]) -> Markup {
    Markup(opening(tag, attributes))
}

/// A tag's beginning. An attribute without a value is there or isn't.
fn opening(tag: &'static str, attributes: &[(&'static str, &str)]) -> String {
    let mut html = format!("<{tag}");
    for (name, value) in attributes {
        html += &match value.is_empty() {
            true => format!(" {name}"),
            false => format!(" {name}=\"{}\"", escaped(value)),
        };
    }
    html + ">"
}

/// Text for elements, and for attributes in double quotes.
fn escaped(text: &str) -> String {
    let mut html = String::with_capacity(text.len());
    for character in text.chars() {
        match character {
            '&' => html += "&amp;",
            '<' => html += "&lt;",
            '>' => html += "&gt;",
            '"' => html += "&quot;",
            '\'' => html += "&#39;",
            _ => match written_out(character) {
                Some(written) => html += &written,
                None => html.push(character),
            },
        }
    }
    html
}

#[cfg(test)]
mod tests {
    use super::{element, void, with, Markup};

    #[test]
    fn names_stay_text() {
        for (name, html) in [
            ("</script>", "&lt;/script&gt;"),
            ("\"a\" & 'b'", "&quot;a&quot; &amp; &#39;b&#39;"),
            ("a\0\n\u{85}b", "a‹U+0000›‹U+000A›‹U+0085›b"),
            ("\u{202e}DRAW\u{feff}", "‹U+202E›DRAW‹U+FEFF›"),
            ("שלום é 七", "שלום é 七"),
        ] {
            assert_eq!(Markup::text(name).into_string(), html);
            let named = format!("<bdi>{html}</bdi>");
            assert_eq!(Markup::name(name).into_string(), named);
            let held = with("p", &[("title", name)], []).into_string();
            assert_eq!(held, format!("<p title=\"{html}\"></p>"));
        }
    }

    #[test]
    fn elements_stand_in_each_other() {
        let list = ["a", "<"].map(|text| element("li", [text.into()]));
        let html = with("ul", &[("class", "few"), ("hidden", "")], list);
        assert_eq!(
            html.into_string(),
            "<ul class=\"few\" hidden><li>a</li><li>&lt;</li></ul>"
        );
        assert_eq!(void("hr", &[]).into_string(), "<hr>");
    }
}
