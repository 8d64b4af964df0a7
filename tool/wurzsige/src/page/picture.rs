//! The picture on the page: what `draw` draws, inside the document, where the style sheet gives it the colours of light or dark.

use design::Design;

use super::markup::{element, with, Markup};
use crate::draw::{rendered, untitled, Form};
use crate::facts::Facts;

/// The picture with what its signs mean. Fails where Graphviz's `dot` does.
pub fn figure(design: &Design, facts: &Facts) -> Result<Markup, String> {
    let drawn = rendered(untitled(design, facts), Form::Other("svg"))?;
    let svg = inline(&String::from_utf8_lossy(&drawn));
    let scrolls = [
        ("class", "scrolls picture"),
        ("role", "group"),
        ("aria-label", "The picture"),
        ("tabindex", "0"),
    ];
    let drawn = with("div", &scrolls, [Markup::made(svg)]);
    Ok(element(
        "figure",
        [drawn, element("figcaption", [signs(design, facts)])],
    ))
}

/// A drawing as it stands in a document: without what comes before its first tag, without `dot`'s own names of nodes and edges, and with a text
/// for those who can't see it.
fn inline(svg: &str) -> String {
    let is_shown = |line: &&str| !line.starts_with("<title>") && !line.starts_with("<!--");
    let lines = svg.lines().skip_while(|line| !line.starts_with("<svg"));
    let drawing: Vec<&str> = lines.filter(is_shown).collect();
    let text = "Tables with their columns, links as arrows between them, and loads; the sections below say the same in words";
    let head = format!("<svg role=\"img\" aria-label=\"{text}\" ");
    drawing.join("\n").replacen("<svg ", &head, 1)
}

fn signs(design: &Design, facts: &Facts) -> Markup {
    let sign = |class, sign: &str, text: &str| {
        let sign = with("span", &[("class", class)], [sign.into()]);
        element("li", [sign, " ".into(), text.into()])
    };
    let mut signs = vec![sign("bold", "bold", "no value stands in the column twice")];
    if !design.loads.is_empty() {
        signs.push(sign("loaded", "◂", "the column's values can be loaded"));
    }
    if !facts.seen_is_all(design).is_empty() {
        signs.push(sign("seen", "green", "a value that is seen is complete"));
    }
    if !facts.is_even() {
        signs.push(sign("knot", "red", "links that feed themselves"));
    }
    signs.push(sign("unused", "grey", "takes no cell"));
    with("ul", &[("class", "signs")], signs)
}

#[cfg(test)]
mod tests {
    use super::inline;

    #[test]
    fn a_drawing_stands_inside_the_document() {
        let svg = "<?xml version=\"1.0\"?>\n<!DOCTYPE svg>\n<svg width=\"9pt\"\n viewBox=\"0 0 9 9\">\n<!-- t0 -->\n<title>t0</title>\n<text>a</text>\n</svg>\n";
        let drawn = inline(svg);
        assert!(drawn.starts_with("<svg role=\"img\" aria-label=\"Tables"));
        assert!(drawn.ends_with(" width=\"9pt\"\n viewBox=\"0 0 9 9\">\n<text>a</text>\n</svg>"));
    }
}
