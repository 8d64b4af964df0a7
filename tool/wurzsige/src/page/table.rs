//! Tables that can be read aloud: each has a caption, a head of columns, and a head in each row.

use super::markup::{element, with, Markup};

/// A column of a table.
pub struct Column {
    head: String,
    is_number: bool,
}

impl Column {
    /// A column of text.
    pub fn text(head: &str) -> Column {
        Column {
            head: head.into(),
            is_number: false,
        }
    }

    /// A column of numbers, which stand below each other.
    pub fn number(head: &str) -> Column {
        Column {
            head: head.into(),
            is_number: true,
        }
    }
}

/// A row: its cells, of which the first is its head.
pub struct Row {
    cells: Vec<Markup>,
    known_by: Option<usize>,
    is_sum: bool,
}

impl Row {
    /// A row of cells.
    pub fn new(cells: impl IntoIterator<Item = Markup>) -> Row {
        Row {
            cells: cells.into_iter().collect(),
            known_by: None,
            is_sum: false,
        }
    }

    /// The same with a number by which the script knows it.
    pub fn known_by(mut self, number: usize) -> Row {
        self.known_by = Some(number);
        self
    }

    /// The same as the sum of the rows above it.
    pub fn sum(mut self) -> Row {
        self.is_sum = true;
        self
    }
}

/// A table of figures, no wider than they need.
pub fn figures(caption: &str, columns: &[Column], rows: impl IntoIterator<Item = Row>) -> Markup {
    framed("figures", caption, columns, rows)
}

/// A table of texts.
pub fn table(caption: &str, columns: &[Column], rows: impl IntoIterator<Item = Row>) -> Markup {
    framed("texts", caption, columns, rows)
}

/// A table of rows. Where it is wider than the page it scrolls by itself, by keyboard too.
fn framed(
    kind: &'static str,
    caption: &str,
    columns: &[Column],
    rows: impl IntoIterator<Item = Row>,
) -> Markup {
    let heads = columns.iter().map(|column| {
        let attributes = [("scope", "col"), ("class", class(column))];
        with("th", &attributes, [column.head.as_str().into()])
    });
    let rows = rows.into_iter().map(|row| body_row(columns, row));
    let table = with(
        "table",
        &[("class", kind)],
        [
            element("caption", [caption.into()]),
            element("thead", [element("tr", heads)]),
            element("tbody", rows),
        ],
    );
    let scrolls = [
        ("class", "scrolls"),
        ("role", "group"),
        ("aria-label", caption),
        ("tabindex", "0"),
    ];
    with("div", &scrolls, [table])
}

fn class(column: &Column) -> &'static str {
    match column.is_number {
        true => "number",
        false => "text",
    }
}

fn body_row(columns: &[Column], row: Row) -> Markup {
    let cells = row.cells.into_iter().zip(columns).enumerate();
    let cells = cells.map(|(index, (cell, column))| match index {
        0 => with("th", &[("scope", "row")], [cell]),
        _ => with("td", &[("class", class(column))], [cell]),
    });
    match row.known_by {
        Some(number) => with("tr", &[("data-row", &number.to_string())], cells),
        None if row.is_sum => with("tr", &[("class", "sum")], cells),
        None => element("tr", cells),
    }
}
