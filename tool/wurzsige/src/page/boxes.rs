//! The boxes of the loads: for each value what it drags in, by table and round, why each row is here, which questions are complete then, and what a second load
//! beside it adds. The script makes a chooser of them.

use std::collections::BTreeSet;

use design::Design;
use session::{Brought, By, MOST_ROWS};

use super::choices::Picked;
use super::costs::{Beside, Complete, Cost, Costs, Loaded, Reached, Said};
use super::facts::code;
use super::markup::{element, with, Markup};
use super::table::{figures, table, Column, Row};
use super::{paragraph, section};
use crate::facts::{Facts, Outcome};
use crate::try_load::counted;

/// The part of the page on what loads drag in.
pub fn loads(design: &Design, facts: &Facts, costs: &Costs, picked: &[Picked]) -> Markup {
    let taken = paragraph(&format!(
        "What the database has was read at {}, when the design's tables had {} together. A desk has room for {MOST_ROWS}.",
        costs.taken,
        counted(costs.size as usize, "row")
    ));
    let warning = with(
        "p",
        &[("class", "note")],
        [
            "The boxes have names and values of the database: keep this page as you keep those."
                .into(),
        ],
    );
    let loads = picked
        .iter()
        .enumerate()
        .map(|(load, picked)| load_part(design, facts, costs, load, picked));
    let parts = [taken, warning].into_iter().chain(loads);
    section("loads", "What a load drags in", parts)
}

/// A box of the page.
struct Box<'p> {
    design: &'p Design,
    facts: &'p Facts,
    costs: &'p Costs,
    number: usize,
}

fn load_part(
    design: &Design,
    facts: &Facts,
    costs: &Costs,
    load: usize,
    picked: &Picked,
) -> Markup {
    let numbered = costs.boxes.iter().enumerate();
    let of_load = numbered.filter(|(_, cost)| cost.choice.load == load);
    let boxes: Vec<Box> = of_load
        .map(|(number, _)| Box {
            design,
            facts,
            costs,
            number,
        })
        .collect();
    let name = &design.loads[load].name;
    let id = format!("load-{load}");
    let mut parts = vec![
        with("h3", &[("id", &id)], ["Load ".into(), Markup::name(name)]),
        element(
            "p",
            [
                "By ".into(),
                code(&design.column_name(design.loads[load].column)),
                format!(". {}", picked.told(boxes.len())).into(),
            ],
        ),
    ];
    if !boxes.is_empty() {
        parts.push(chooser(load, name, &boxes));
    }
    parts.extend(boxes.iter().map(Box::markup));
    with(
        "section",
        &[("class", "load"), ("aria-labelledby", &id)],
        parts,
    )
}

/// The control by which one of a load's boxes is chosen, which the script shows, and where it says what is shown.
fn chooser(load: usize, name: &str, boxes: &[Box]) -> Markup {
    let id = format!("choose-{load}");
    let options = boxes.iter().map(|shown| {
        let value = shown.cost().choice.wanted.to_string();
        with("option", &[("value", &shown.id())], [Markup::text(&value)])
    });
    let all = with("option", &[("value", "")], ["all of them".into()]);
    let select = with("select", &[("id", &id)], options.chain([all]));
    let label = with(
        "label",
        &[("for", &id)],
        ["Choose a value of ".into(), Markup::name(name)],
    );
    let control = with(
        "p",
        &[("class", "chooser"), ("hidden", "")],
        [label, select],
    );
    let told = with(
        "p",
        &[("class", "told"), ("role", "status"), ("hidden", "")],
        [],
    );
    [control, told].into_iter().collect()
}

impl Box<'_> {
    fn cost(&self) -> &Cost {
        &self.costs.boxes[self.number]
    }

    /// By which the script and the address know the box.
    fn id(&self) -> String {
        format!("value-{}", self.number)
    }

    fn markup(&self) -> Markup {
        let cost = self.cost();
        let summary = element(
            "summary",
            [
                Markup::name(&cost.choice.wanted.to_string()),
                " ".into(),
                with("span", &[("class", "summed")], [summed(&cost.said).into()]),
            ],
        );
        let inside = match &cost.said {
            Said::Loaded(loaded) => self.loaded(loaded),
            Said::TooLarge(rows) => vec![paragraph(&format!("It needs at least {rows} rows, and a desk has room for {MOST_ROWS}. Nothing is loaded: a desk with a part of these rows would call wrong answers complete."))],
            Said::NoCandidate => vec![paragraph("It isn't among the values of the load, so that nothing is loaded.")],
        };
        let parts = std::iter::once(summary).chain(inside);
        with("details", &[("class", "value"), ("id", &self.id())], parts)
    }

    fn loaded(&self, loaded: &Loaded) -> Vec<Markup> {
        let mut parts = vec![
            room(loaded.rows.len()),
            with(
                "div",
                &[("class", "beside")],
                [self.by_round(loaded), self.by_link(&loaded.brought)],
            ),
            heading("Why each row is here"),
        ];
        parts.extend((0..self.design.tables.len()).filter_map(|table| self.reasons(loaded, table)));
        parts.push(heading("Which questions are complete then"));
        parts.push(self.questions(&loaded.questions));
        if self.costs.boxes.len() > 1 {
            parts.push(heading("A second load beside it"));
            parts.push(self.second());
            let others = 0..self.costs.boxes.len();
            parts.extend(others.filter_map(|other| self.pair(loaded, other)));
        }
        parts
    }

    /// The rows that are here of a table.
    fn rows<'l>(&'l self, loaded: &'l Loaded, table: usize) -> impl Iterator<Item = &'l Reached> {
        let is_of = move |reached: &&Reached| self.costs.rows[reached.row].table == table;
        loaded.rows.iter().filter(is_of)
    }

    fn by_round(&self, loaded: &Loaded) -> Markup {
        let rounds = 0..=loaded.rounds;
        let mut columns = vec![Column::text("Table"), Column::number("At once")];
        columns.extend((1..=loaded.rounds).map(|round| Column::number(&format!("Round {round}"))));
        columns.push(Column::number("All"));
        let line = |name: Markup, rows: &[&Reached]| {
            let count = |round| rows.iter().filter(|row| row.round() == round).count();
            let counts = rounds.clone().map(count).chain([rows.len()]);
            Row::new(std::iter::once(name).chain(counts.map(figure)))
        };
        let tables = self.design.tables.iter().enumerate();
        let mut lines: Vec<Row> = tables
            .filter_map(|(number, table)| {
                let rows: Vec<&Reached> = self.rows(loaded, number).collect();
                (!rows.is_empty()).then(|| line(Markup::name(&table.name), &rows))
            })
            .collect();
        let all: Vec<&Reached> = loaded.rows.iter().collect();
        lines.push(line("all tables".into(), &all).sum());
        figures(
            "Rows by table and by the round in which they come",
            &columns,
            lines,
        )
    }

    fn by_link(&self, brought: &[Brought]) -> Markup {
        let columns = [
            Column::text("Table"),
            Column::number("Rows"),
            Column::text("By"),
        ];
        let rows = brought.iter().map(|brought| {
            let by = match brought.by {
                By::Load(_) => "the load itself".into(),
                By::Link(link) => code(&self.design.link_name(&self.design.links[link])),
            };
            let table = Markup::name(&self.design.tables[brought.table].name);
            Row::new([table, figure(brought.rows), by])
        });
        figures("What brought them, each row counted once", &columns, rows)
    }

    /// The rows of a table, each with its reason.
    fn reasons(&self, loaded: &Loaded, number: usize) -> Option<Markup> {
        let columns = [
            Column::text("Row"),
            Column::number("Round"),
            Column::text("It is here because it"),
        ];
        let count = self.rows(loaded, number).count();
        let name = &self.design.tables[number].name;
        let rows = self.rows(loaded, number).map(|reached| {
            let label = Markup::name(&self.costs.rows[reached.row].label);
            let round = match reached.round() {
                0 => "at once".into(),
                round => figure(round),
            };
            Row::new([label, round, self.reason(reached)]).known_by(reached.row)
        });
        let summary = element(
            "summary",
            [
                Markup::name(name),
                format!(": {}", counted(count, "row")).into(),
            ],
        );
        let caption = format!("Rows of {name}");
        let inside = [summary, table(&caption, &columns, rows)];
        (count > 0).then(|| with("details", &[("class", "rows")], inside))
    }

    /// Why a row is here, in the links' words, back to the load.
    fn reason(&self, reached: &Reached) -> Markup {
        let mut parts = Vec::new();
        for &(link, from) in &reached.steps {
            let link = &self.design.links[link];
            let from = element("b", [Markup::name(&self.costs.rows[from].label)]);
            parts.extend(match &link.words {
                Some(words) => vec![Markup::name(words), " ".into(), from],
                None => {
                    let name = code(&self.design.link_name(link));
                    vec![
                        "was brought by ".into(),
                        from,
                        " (".into(),
                        name,
                        ")".into(),
                    ]
                }
            });
            parts.push(", which ".into());
        }
        let choice = &self.cost().choice;
        let load = &self.design.loads[choice.load];
        parts.extend([
            "has ".into(),
            code(&self.design.column_name(load.column)),
            " ".into(),
            element("b", [Markup::name(&choice.wanted.to_string())]),
            ", which was loaded as ".into(),
            Markup::name(&load.name),
        ]);
        parts.into_iter().collect()
    }

    /// Which questions are complete after the load.
    fn questions(&self, complete: &[Complete]) -> Markup {
        let columns = [Column::text("Question"), Column::text("Complete for")];
        let questions = self.design.questions.iter().zip(complete);
        let rows = questions.map(|(question, complete)| {
            let class = match complete {
                Complete { complete: 0, .. } => "verdict never",
                Complete { known, complete } if known == complete => "verdict always",
                _ => "verdict once",
            };
            let mut told = vec![with("span", &[("class", class)], [told(complete).into()])];
            let loads = Outcome::of(self.facts, question) == Outcome::Always;
            if loads && complete.complete < complete.known {
                told.push(" asked for another, it loads that".into());
            }
            Row::new([
                Markup::name(&question.text),
                told.into_iter().collect::<Markup>(),
            ])
        });
        figures(
            "Of the values that the rows here know of, by probes",
            &columns,
            rows,
        )
    }

    /// The control by which a second load is chosen, which the script shows.
    fn second(&self) -> Markup {
        let id = format!("beside-{}", self.number);
        let others = (0..self.costs.boxes.len()).filter(|&other| other != self.number);
        let options = others.map(|other| {
            let value = format!("pair-{}-{other}", self.number);
            with(
                "option",
                &[("value", &value)],
                [Markup::text(&self.choice_name(other))],
            )
        });
        let none = with("option", &[("value", "none")], ["none".into()]);
        let all = with("option", &[("value", "")], ["all of them".into()]);
        let select = with(
            "select",
            &[("id", &id)],
            std::iter::once(none).chain(options).chain([all]),
        );
        let label = with("label", &[("for", &id)], ["Choose a second load".into()]);
        with(
            "p",
            &[("class", "chooser"), ("hidden", "")],
            [label, select],
        )
    }

    /// A load with a value, as it is called.
    fn choice_name(&self, number: usize) -> String {
        let choice = &self.costs.boxes[number].choice;
        format!("{} {}", self.design.loads[choice.load].name, choice.wanted)
    }

    /// What another load adds beside this one.
    fn pair(&self, loaded: &Loaded, other: usize) -> Option<Markup> {
        let name = Markup::name(&self.choice_name(other));
        let (told, inside) = match &self.costs.beside[self.number][other] {
            Beside::Same => return None,
            Beside::Alone => (
                ": it can't be loaded even by itself".to_string(),
                Vec::new(),
            ),
            Beside::TooLarge => (
                format!(": both together need more than {MOST_ROWS} rows, so that it isn't loaded"),
                Vec::new(),
            ),
            Beside::Both { adds, shared } => (
                format!(
                    ": it adds {}, and both need {}; together {} of {MOST_ROWS}",
                    counted(adds.len(), "row"),
                    counted(shared.len(), "row"),
                    loaded.rows.len() + adds.len()
                ),
                vec![
                    self.added(adds, shared),
                    self.names(shared),
                    others_of(other),
                ],
            ),
        };
        let summary = element("summary", [name, told.into()]);
        let attributes = [
            ("class", "pair"),
            ("id", &format!("pair-{}-{other}", self.number)),
            ("data-second", &format!("value-{other}")),
        ];
        Some(with(
            "details",
            &attributes,
            std::iter::once(summary).chain(inside),
        ))
    }

    fn added(&self, adds: &BTreeSet<usize>, shared: &BTreeSet<usize>) -> Markup {
        let columns = [
            Column::text("Table"),
            Column::number("It adds"),
            Column::number("Both need"),
        ];
        let of = |rows: &BTreeSet<usize>, table| {
            rows.iter()
                .filter(|&&row| self.costs.rows[row].table == table)
                .count()
        };
        let tables = self.design.tables.iter().enumerate();
        let rows = tables.filter_map(|(number, table)| {
            let (adds, shared) = (of(adds, number), of(shared, number));
            (adds + shared > 0)
                .then(|| Row::new([Markup::name(&table.name), figure(adds), figure(shared)]))
        });
        figures("What the second load adds, by table", &columns, rows)
    }

    /// The rows that both need by their names, table by table.
    fn names(&self, shared: &BTreeSet<usize>) -> Markup {
        let tables = self.design.tables.iter().enumerate();
        let lists = tables.filter_map(|(number, table)| {
            let is_of = |row: &&usize| self.costs.rows[**row].table == number;
            let items = shared.iter().filter(is_of).map(|&row| {
                let label = Markup::name(&self.costs.rows[row].label);
                with("li", &[("data-row", &row.to_string())], [label])
            });
            let items: Vec<Markup> = items.collect();
            let head = [
                "Both need of ".into(),
                Markup::name(&table.name),
                ":".into(),
            ];
            (!items.is_empty()).then(|| {
                [element("p", head), element("ul", items)]
                    .into_iter()
                    .collect()
            })
        });
        with("div", &[("class", "shared")], lists)
    }
}

/// Where the rows are that another load adds; the script puts their names in its place.
fn others_of(other: usize) -> Markup {
    let place = format!("#value-{other}");
    let parts = [
        "It adds the other rows of ".into(),
        with("a", &[("href", &place)], ["its own box".into()]),
        ".".into(),
    ];
    with("div", &[("class", "adds")], [element("p", parts)])
}

/// What the desk said, in a few words.
fn summed(said: &Said) -> String {
    match said {
        Said::Loaded(loaded) => {
            let (rows, rounds) = (loaded.rows.len(), loaded.rounds);
            format!("{} in {}", counted(rows, "row"), counted(rounds, "round"))
        }
        Said::TooLarge(_) => format!("more than {MOST_ROWS} rows: it can't be loaded"),
        Said::NoCandidate => "not among the load's values".into(),
    }
}

/// The share of the desk's room that is taken.
fn room(rows: usize) -> Markup {
    let (rows_text, share) = (rows.to_string(), rows * 100 / MOST_ROWS);
    let bar = [("whole", MOST_ROWS.to_string()), ("part", rows_text)].map(|(class, width)| {
        with(
            "rect",
            &[("class", class), ("width", &width), ("height", "10")],
            [],
        )
    });
    let view = format!("0 0 {MOST_ROWS} 10");
    let bar = with(
        "svg",
        &[
            ("viewBox", &view),
            ("preserveAspectRatio", "none"),
            ("aria-hidden", "true"),
        ],
        bar,
    );
    let told = format!("{rows} of {MOST_ROWS} rows: {share} % of the desk's room");
    with(
        "p",
        &[("class", "room")],
        [bar, element("span", [told.into()])],
    )
}

fn told(complete: &Complete) -> String {
    match *complete {
        Complete { known: 0, .. } => "no value is known here".into(),
        Complete {
            known: 1,
            complete: 1,
        } => "the one value".into(),
        Complete { known, complete: 0 } => format!("none of {known}"),
        Complete { known, complete } if known == complete => format!("all {known} values"),
        Complete { known, complete } => format!("{complete} of {known} values"),
    }
}

fn heading(text: &str) -> Markup {
    element("h4", [text.into()])
}

/// A figure of a table; none stands for 0.
fn figure(count: usize) -> Markup {
    match count {
        0 => "–".into(),
        count => count.to_string().into(),
    }
}
