//! Replies of `ask` for people.

use codespan_reporting::term::termcolor::Color;
use design::Design;
use session::{
    Held, Issued, Lists, Needs, Opener, Reason, Referred, Refreshed, Session, TooLarge, Trouble,
    MOST_ROWS,
};
use wurzsige::Ground;

use crate::ask::{Reply, COMMANDS};
use crate::output::Page;
use crate::status::Status;
use crate::try_load::{counted, most};

/// How many keys of a table are shown, at most; programs are told all.
const SHOWN_KEYS: usize = 6;

/// How a program ends that has replied this.
pub fn status(reply: &Reply) -> Status {
    match reply {
        Reply::Trouble(Trouble::Failed(_) | Trouble::Stale(_)) => Status::Unreadable,
        Reply::Trouble(_) | Reply::Mistakes(_) | Reply::TooLarge(_) => Status::Refused,
        Reply::Refreshed(Refreshed::TooLarge { .. }, _) => Status::Refused,
        _ => Status::Good,
    }
}

/// The label of a row.
fn label<'s>(session: &'s Session, row: u16) -> &'s str {
    session.row(row).map_or("", |row| &row.label)
}

/// A load as it is written in a command.
fn load_command(design: &Design, load: usize, value: &Issued) -> String {
    let name = design::name(&design.loads[load].name);
    format!("load {name} {}", value.word())
}

/// The reply to the command of a line, for people.
pub fn text(page: &mut Page, session: &Session, line: &str, reply: &Reply) {
    let design = session.design();
    match reply {
        Reply::Loaded(Referred::Loaded { rows, rounds }) => page.text(&format!(
            "{} in {}\n",
            counted(*rows, "row"),
            counted(*rounds, "round")
        )),
        Reply::Loaded(Referred::Held) => page.text("it is held already\n"),
        Reply::Loaded(Referred::NoCandidate) => page.text("the load's `values` don't have it\n"),
        Reply::Dropped(rows) => page.text(&format!("{} gone\n", counted(*rows, "row"))),
        Reply::TooLarge(large) => too_large(page, session, large),
        Reply::Complete(ground, rows) => page.text(&format!(
            "complete: {}; {} it\n",
            because(*ground),
            match rows {
                0 => "no row has".to_string(),
                1 => "1 row has".into(),
                _ => format!("{rows} rows have"),
            }
        )),
        Reply::Sent(opener) => sent(page, design, opener),
        Reply::Open => page.text("the desk answers already\n"),
        Reply::Lists(lists, ground) => lists_of(page, session, lists, *ground),
        Reply::Total(total) => page.text(&format!("{total}\n")),
        Reply::Reason(reason, desks) => why(page, session, reason, desks),
        Reply::Absent(row, true) => page.text(&format!("{row} isn't here\n")),
        Reply::Absent(row, false) => page.text(&format!("the database has no {row}\n")),
        Reply::Desk(desk) => page.text(&format!("desk {desk}\n")),
        Reply::Holds(held) => holds(page, design, held),
        Reply::Rows(rows) => rows_of(page, session, rows),
        Reply::Refreshed(refreshed, rows) => renewed(page, session, refreshed, *rows),
        Reply::Help => help(page),
        Reply::Quit => {}
        Reply::Trouble(trouble) => {
            page.coloured(Color::Red, "refused");
            page.text(&format!(": {trouble}\n"));
        }
        Reply::Mistakes(problems) => problems
            .iter()
            .for_each(|problem| page.problem_in("command", line.trim(), problem)),
    }
}

fn because(ground: Ground) -> &'static str {
    match ground {
        Ground::Held => "it is held",
        Ground::Linked => "a row that is here has brought all of it",
        Ground::Unique => "the column is unique, and the row is here",
    }
}

fn too_large(page: &mut Page, session: &Session, large: &TooLarge) {
    let beside = match session.held().is_empty() {
        true => "",
        false => "with what is held ",
    };
    page.coloured(Color::Red, "too large");
    page.text(&format!(
        ": {beside}it needs at least {} rows, and a desk has {MOST_ROWS}; nothing has changed\n",
        large.rows
    ));
    page.text(&format!("{}\n", most(session.design(), large)));
}

fn sent(page: &mut Page, design: &Design, opener: &Opener) {
    page.coloured(Color::Yellow, "sent");
    match opener {
        Opener::Load { load, value } => page.text(&format!(
            ": ask the database. `{}` would let the desk answer.\n",
            load_command(design, *load, value)
        )),
        _ => page.text(": ask the database. No load is known that would let the desk answer.\n"),
    }
}

/// Lists as a table of labels.
fn lists_of(page: &mut Page, session: &Session, lists: &Lists, ground: Option<Ground>) {
    let names = lists.tables.iter();
    let head: Vec<&str> = names
        .map(|&table| session.design().tables[table].name.as_str())
        .collect();
    let lines: Vec<Vec<&str>> = lists
        .lists
        .iter()
        .map(|list| list.iter().map(|&row| label(session, row)).collect())
        .collect();
    let width = |position: usize| {
        let all = lines.iter().chain([&head]);
        let widths = all.map(|line| line[position].chars().count());
        widths.max().unwrap_or(0)
    };
    let widths: Vec<usize> = (0..head.len()).map(width).collect();
    if !lines.is_empty() {
        for line in [&head].into_iter().chain(&lines) {
            let cells = line.iter().zip(&widths);
            let cells: Vec<String> = cells
                .map(|(cell, &width)| format!("{cell:width$}"))
                .collect();
            page.text(&format!("{}\n", cells.join("  ").trim_end()));
        }
    }
    let why = ground.map_or(String::new(), |ground| {
        format!("; complete: {}", because(ground))
    });
    page.text(&format!("({}{why})\n", counted(lists.lists.len(), "list")));
}

fn why(page: &mut Page, session: &Session, reason: &Reason, desks: &[u8]) {
    let design = session.design();
    page.text(&format!("{} is here because\n", label(session, reason.row)));
    let mut pronoun = "it";
    for step in &reason.steps {
        let link = &design.links[step.link];
        let from = label(session, step.from);
        let line = match &link.words {
            Some(words) => format!("{pronoun} {words} {from}"),
            None => format!(
                "{pronoun} was brought by {from} ({})",
                design.link_name(link)
            ),
        };
        page.text(&format!("  {line}\n"));
        pronoun = "which";
    }
    let column = design.column_name(design.loads[reason.load].column);
    let numbers: Vec<String> = desks.iter().map(u8::to_string).collect();
    let who = match &numbers[..] {
        [desk] => format!("desk {desk}"),
        _ => format!("desks {}", numbers.join(", ")),
    };
    page.text(&format!(
        "  {pronoun} has {column} {}, which {who} loaded as {}\n",
        reason.wanted, design.loads[reason.load].name
    ));
}

fn holds(page: &mut Page, design: &Design, held: &[(Held, Needs)]) {
    if held.is_empty() {
        page.text("nothing is held\n");
    }
    for (held, needs) in held {
        page.text(&format!(
            "desk {}: {} {} ({}, of which {} nobody else needs)\n",
            held.desk,
            design.loads[held.load].name,
            held.wanted,
            counted(needs.rows, "row"),
            needs.alone
        ));
    }
}

/// The keys of rows, by table.
pub(crate) fn keys_by_table<'s>(
    session: &'s Session,
    rows: &[u16],
) -> Vec<(&'s str, Vec<&'s str>)> {
    let tables = session.design().tables.iter().enumerate();
    let keys = |table| {
        let rows = rows.iter().filter_map(|&row| session.row(row));
        let rows = rows.filter(|row| row.identity.table == table);
        rows.map(|row| row.key.as_str()).collect::<Vec<&str>>()
    };
    let tables = tables.map(|(number, table)| (table.name.as_str(), keys(number)));
    tables.filter(|(_, keys)| !keys.is_empty()).collect()
}

fn rows_of(page: &mut Page, session: &Session, rows: &[u16]) {
    page.text(&format!("{} of {MOST_ROWS}\n", counted(rows.len(), "row")));
    for (table, keys) in keys_by_table(session, rows) {
        let more = if keys.len() > SHOWN_KEYS { ", .." } else { "" };
        let shown = keys[..keys.len().min(SHOWN_KEYS)].join(", ");
        page.text(&format!("  {:4}  {table}: {shown}{more}\n", keys.len()));
    }
}

fn renewed(page: &mut Page, session: &Session, refreshed: &Refreshed, rows: usize) {
    match refreshed {
        Refreshed::Kept {
            came,
            went,
            changed,
        } => page.text(&format!(
            "as of {}: {came} came, {went} went, {changed} changed; {} here\n",
            session.taken(),
            counted(rows, "row")
        )),
        Refreshed::TooLarge { rows, dropped } => {
            page.coloured(Color::Red, "too large");
            page.text(&format!(
                ": as of {} what was held needs at least {rows} rows, and a desk has {MOST_ROWS}. All of it was dropped:\n",
                session.taken()
            ));
            for held in dropped {
                let load = &session.design().loads[held.load].name;
                page.text(&format!("  desk {}: {load} {}\n", held.desk, held.wanted));
            }
        }
    }
}

fn help(page: &mut Page) {
    let width = COMMANDS.iter().map(|(_, form, _)| form.len()).max();
    let width = width.unwrap_or(0);
    for (_, form, what) in COMMANDS {
        page.text(&format!("  {form:width$}  {what}\n"));
    }
    page.text("A value or key is a word, or a string in double quotes with \\\" and \\\\ for \" and \\.\n");
    page.text("A tuple's parts are joined by |; within a part \\| and \\\\ stand for | and \\.\n");
    page.text("Behind a value of a column with issues # and the issue may stand.\n");
}
