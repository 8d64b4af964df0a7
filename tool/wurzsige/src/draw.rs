//! `draw`: a design as a picture, in DOT, which Graphviz's `dot` turns into others.

use std::io::Write;
use std::path::Path;
use std::process::{Command, Stdio};

use design::{Cells, Design, Link, Place};

use crate::facts::Facts;
use crate::file::File;
use crate::library::Refused;
use crate::unseen::written_out;

const FONT: &str = "DejaVu Sans,Verdana,sans-serif";
const HEAD: &str = "#d9e2f0";
const SEEN: &str = "#dff3e0";
const FAINT: &str = "#8a8a8a";
const LOAD: &str = "#1a5fb4";
const LINK: &str = "#5a5f66";
const KNOT: &str = "#c4161c";

/// What a picture is drawn as.
#[derive(Clone, Copy, Debug, PartialEq, Eq)]
pub enum Form {
    /// DOT text.
    Dot,
    /// Another one, by the name that `dot` has for it.
    Other(&'static str),
}

/// The form that a file's name asks for; DOT without one.
pub fn form(output: Option<&Path>) -> Result<Form, String> {
    let Some(path) = output else {
        return Ok(Form::Dot);
    };
    let ending = path.extension().and_then(|ending| ending.to_str());
    match ending.map(str::to_lowercase).as_deref() {
        Some("dot" | "gv") => Ok(Form::Dot),
        Some("svg") => Ok(Form::Other("svg")),
        Some("png") => Ok(Form::Other("png")),
        Some("pdf") => Ok(Form::Other("pdf")),
        _ => Err(format!(
            "{}: a picture's name ends with .svg, .png, .pdf or .dot",
            path.display()
        )),
    }
}

/// The picture in a form, by `dot` where that is another than DOT.
pub fn rendered(dot: String, form: Form) -> Result<Vec<u8>, String> {
    let Form::Other(name) = form else {
        return Ok(dot.into_bytes());
    };
    let mut command = Command::new("dot");
    command.arg(format!("-T{name}"));
    if name == "png" {
        command.arg("-Gdpi=144");
    }
    let failed = |error: std::io::Error| {
        format!("Graphviz's `dot` can't be run: {error} (Debian has it in the package graphviz)")
    };
    let child = command
        .stdin(Stdio::piped())
        .stdout(Stdio::piped())
        .stderr(Stdio::piped())
        .spawn();
    let mut child = child.map_err(failed)?;
    let input = child.stdin.take();
    let writer = std::thread::spawn(move || input.map(|mut input| input.write_all(dot.as_bytes())));
    let output = child.wait_with_output().map_err(failed)?;
    let written = writer.join();
    if !output.status.success() {
        return Err(format!(
            "Graphviz's `dot` failed: {}",
            String::from_utf8_lossy(&output.stderr).trim()
        ));
    }
    match written {
        Ok(Some(Ok(()))) => Ok(output.stdout),
        _ => Err("Graphviz's `dot` didn't read the whole picture".into()),
    }
}

/// The picture of a design without errors.
pub fn dot(file: &File) -> Result<String, Refused> {
    let Some(design) = file.design() else {
        return Ok(String::new());
    };
    let facts = Facts::of(design)?;
    let title = title(design, &facts, &Cells::of(design));
    let label = format!(", labelloc=t, labeljust=l, label=<{title}>");
    Ok(picture(design, &facts, &label))
}

/// The picture without a title, for a page that has one.
pub fn untitled(design: &Design, facts: &Facts) -> String {
    picture(design, facts, "")
}

fn picture(design: &Design, facts: &Facts, label: &str) -> String {
    let cells = Cells::of(design);
    let mut dot = String::from("digraph design {\n");
    dot += &format!(
        "  graph [rankdir=LR, nodesep=0.35, ranksep=1.1, pad=0.3, fontname=\"{FONT}\"{label}];\n"
    );
    dot += &format!("  node [shape=plain, fontname=\"{FONT}\", fontsize=11];\n");
    dot += "  edge [arrowsize=0.8];\n";
    for table in 0..design.tables.len() {
        dot += &format!(
            "  t{table} [label=<{}>];\n",
            node(design, facts, &cells, table)
        );
    }
    for number in 0..design.links.len() {
        let in_knot = facts.knots.iter().any(|knot| knot.contains(&number));
        dot += &edge(design, number, in_knot);
    }
    dot + "}\n"
}

/// The design's title, and below it what the signs mean that the picture has.
fn title(design: &Design, facts: &Facts, cells: &Cells) -> String {
    let any_column = |is: &dyn Fn(Place) -> bool| places(design).any(is);
    let signs = [
        (
            any_column(&|place| design.column(place).role.is_unique()),
            "<b>bold</b> no value twice".to_string(),
        ),
        (
            !design.loads.is_empty(),
            format!("<font color=\"{LOAD}\">◂</font> can be loaded"),
        ),
        (
            !facts.seen_is_all(design).is_empty(),
            "<font color=\"#2e7d32\">green</font> what is seen is complete".into(),
        ),
        (
            !facts.is_even(),
            format!("<font color=\"{KNOT}\"><b>red</b></font> links that feed themselves"),
        ),
        (
            any_column(&|place| cells.cell(place).is_none()),
            format!("<font color=\"{FAINT}\">grey</font> takes no cell"),
        ),
    ];
    let signs: Vec<String> = signs
        .into_iter()
        .filter_map(|(is_there, sign)| is_there.then_some(sign))
        .collect();
    let line = |size: u32, text: &str| {
        // `dot` takes no empty text between two tags
        let text = if text.is_empty() { " " } else { text };
        format!("<font point-size=\"{size}\">{text}</font><br align=\"left\"/>")
    };
    let name = match design.title.is_empty() {
        true => String::new(),
        false => format!("<b>{}</b>", escaped(&design.title)),
    };
    line(17, &name) + &line(5, "") + &line(10, &signs.join("  ·  ")) + &line(12, "")
}

/// Every column of a design.
fn places(design: &Design) -> impl Iterator<Item = Place> + '_ {
    let tables = design.tables.iter().enumerate();
    tables.flat_map(|(table, of)| (0..of.columns.len()).map(move |column| Place { table, column }))
}

fn node(design: &Design, facts: &Facts, cells: &Cells, table: usize) -> String {
    let name = escaped(&design.tables[table].name);
    let mut rows = format!("<tr><td bgcolor=\"{HEAD}\"><b>{name}</b></td></tr>");
    let seen = facts.seen_is_all(design);
    for column in 0..design.tables[table].columns.len() {
        let place = Place { table, column };
        rows += &row(
            design,
            place,
            cells.cell(place).is_some(),
            seen.contains(&place),
        );
    }
    format!("<table border=\"0\" cellborder=\"1\" cellspacing=\"0\" cellpadding=\"4\" color=\"#3b4252\">{rows}</table>")
}

fn row(design: &Design, place: Place, takes_cell: bool, seen: bool) -> String {
    let column = design.column(place);
    let mut name = escaped(&column.name);
    if column.role.is_unique() {
        name = format!("<b>{name}</b>");
    }
    if !takes_cell {
        name = format!("<font color=\"{FAINT}\">{name}</font>");
    }
    let kind = escaped(&kind(design, place));
    let mut text = format!("{name}  <font color=\"{FAINT}\" point-size=\"9\">{kind}</font>");
    for load in design.loads.iter().filter(|load| load.column == place) {
        text += &format!("  <font color=\"{LOAD}\">◂ {}</font>", escaped(&load.name));
    }
    let color = if seen {
        format!(" bgcolor=\"{SEEN}\"")
    } else {
        String::new()
    };
    format!(
        "<tr><td port=\"c{}\" align=\"left\"{color}>{text}</td></tr>",
        place.column
    )
}

/// A column's type, tuples as such.
fn kind(design: &Design, place: Place) -> String {
    let column = design.column(place);
    match column.role {
        design::Role::Measure => "measure".into(),
        _ => column.kind.to_string(),
    }
}

/// The line of a link, with an arrow at its target.
fn edge(design: &Design, number: usize, in_knot: bool) -> String {
    let link = &design.links[number];
    let look = look(design, link, in_knot);
    let end = |place: Place| format!("t{}:c{}", place.table, place.column);
    let (source, target) = (end(link.source), end(link.target));
    let turned = |other: &Link| (other.source, other.target) == (link.target, link.source);
    if link.source.table == link.target.table {
        turning(number, link, &source, &target, &look)
    } else if design.links[..number].iter().any(turned) {
        // `dot` draws two lines between the same ends beside each other only if both start at one end
        format!("  {target} -> {source} [dir=back, {look}];\n")
    } else {
        format!("  {source} -> {target} [{look}];\n")
    }
}

/// The line of a link within a table, over a point beside it. `dot` leaves no room for a line from a table to itself, and draws it across the
/// tables that stand next.
fn turning(number: usize, link: &Link, source: &str, target: &str, look: &str) -> String {
    let (below, above) = match link.target.column > link.source.column {
        true => ("n", "s"),
        false => ("s", "n"),
    };
    let point = format!("  l{number} [shape=point, width=0.05, {look}];\n");
    let out = format!("  {source}:e -> l{number}:{below} [arrowhead=none, {look}];\n");
    let back = format!("  {target}:e -> l{number}:{above} [dir=back, {look}];\n");
    point + &out + &back
}

/// How a link's line looks, and what is told where the pointer rests on it.
fn look(design: &Design, link: &Link, in_knot: bool) -> String {
    let tooltip = match &link.words {
        Some(words) => format!("{}: {words}", design.link_name(link)),
        None => design.link_name(link),
    };
    let (color, width) = if in_knot { (KNOT, 2.2) } else { (LINK, 1.2) };
    format!(
        "tooltip=\"{}\", color=\"{color}\", penwidth={width}",
        quoted(&tooltip)
    )
}

/// Text in labels of HTML's kind.
fn escaped(text: &str) -> String {
    let escape = |character| match character {
        '&' => "&amp;".to_string(),
        '<' => "&lt;".into(),
        '>' => "&gt;".into(),
        '"' => "&quot;".into(),
        _ => written_out(character).unwrap_or_else(|| character.to_string()),
    };
    text.chars().map(escape).collect()
}

/// Text in strings of DOT. A backslash would begin an escape of its own there.
fn quoted(text: &str) -> String {
    let escape = |character| match character {
        '\\' => "\\\\".to_string(),
        '"' => "\\\"".into(),
        _ => written_out(character).unwrap_or_else(|| character.to_string()),
    };
    text.chars().map(escape).collect()
}
