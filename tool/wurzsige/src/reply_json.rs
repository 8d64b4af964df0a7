//! Replies of `ask` for programs: one object to a line.

use std::collections::BTreeMap;

use design::Design;
use serde::Serialize;
use session::{Held, Lists, Needs, Opener, Reason, Referred, Refreshed, Session, Trouble};

use crate::ask::{Reply, COMMANDS};
use crate::reply::keys_by_table;

/// A line of JSON.
#[derive(Serialize)]
#[serde(tag = "answer")]
enum Json<'a> {
    #[serde(rename = "loaded")]
    Loaded { rows: usize, rounds: usize },
    #[serde(rename = "held")]
    Held,
    #[serde(rename = "no candidate")]
    NoCandidate,
    #[serde(rename = "dropped")]
    Dropped { rows: usize },
    #[serde(rename = "too large")]
    TooLarge {
        rows: usize,
        #[serde(skip_serializing_if = "Option::is_none")]
        dropped: Option<Vec<JsonHeld<'a>>>,
    },
    #[serde(rename = "complete")]
    Complete { ground: u8, rows: usize },
    #[serde(rename = "sent")]
    Sent { opener: Option<JsonLoad<'a>> },
    #[serde(rename = "open")]
    Open,
    #[serde(rename = "lists")]
    Lists {
        tables: Vec<&'a str>,
        lists: Vec<Vec<&'a str>>,
    },
    #[serde(rename = "total")]
    Total { total: u64 },
    #[serde(rename = "reason")]
    Reason {
        row: String,
        steps: Vec<JsonStep<'a>>,
    },
    #[serde(rename = "absent")]
    Absent,
    #[serde(rename = "desk")]
    Desk { desk: u8 },
    #[serde(rename = "holds")]
    Holds { held: Vec<JsonHeld<'a>> },
    #[serde(rename = "rows")]
    Rows {
        tables: BTreeMap<&'a str, Vec<&'a str>>,
    },
    #[serde(rename = "refreshed")]
    Refreshed {
        came: usize,
        went: usize,
        changed: usize,
        rows: usize,
        taken: &'a str,
    },
    #[serde(rename = "help")]
    Help { commands: Vec<&'a str> },
    #[serde(rename = "refused")]
    Refused { cause: Option<u8>, message: String },
    #[serde(rename = "unreadable")]
    Unreadable { message: String },
}

/// A load with a value.
#[derive(Serialize)]
struct JsonLoad<'a> {
    load: &'a str,
    value: String,
}

/// Something held.
#[derive(Serialize)]
struct JsonHeld<'a> {
    desk: u8,
    load: &'a str,
    value: String,
    #[serde(skip_serializing_if = "Option::is_none")]
    rows: Option<usize>,
    #[serde(skip_serializing_if = "Option::is_none")]
    alone: Option<usize>,
}

impl<'a> JsonHeld<'a> {
    fn of(design: &'a Design, held: &Held, needs: Option<&Needs>) -> JsonHeld<'a> {
        JsonHeld {
            desk: held.desk,
            load: &design.loads[held.load].name,
            value: held.wanted.to_string(),
            rows: needs.map(|needs| needs.rows),
            alone: needs.map(|needs| needs.alone),
        }
    }
}

/// A step of a reason.
#[derive(Serialize)]
#[serde(untagged)]
enum JsonStep<'a> {
    Link { link: String, from: String },
    Load(JsonLoad<'a>),
}

/// The reply for programs: an object on a line; nothing for `quit`.
pub fn json(session: &Session, reply: &Reply) -> Vec<u8> {
    let design = session.design();
    let json = match reply {
        Reply::Loaded(Referred::Loaded { rows, rounds }) => Json::Loaded {
            rows: *rows,
            rounds: *rounds,
        },
        Reply::Loaded(Referred::Held) => Json::Held,
        Reply::Loaded(Referred::NoCandidate) => Json::NoCandidate,
        Reply::Dropped(rows) => Json::Dropped { rows: *rows },
        Reply::TooLarge(large) => Json::TooLarge {
            rows: large.rows,
            dropped: None,
        },
        Reply::Complete(ground, rows) => Json::Complete {
            ground: ground.number(),
            rows: *rows,
        },
        Reply::Sent(opener) => Json::Sent {
            opener: match opener {
                Opener::Load { load, value } => Some(JsonLoad {
                    load: &design.loads[*load].name,
                    value: value.to_string(),
                }),
                _ => None,
            },
        },
        Reply::Open => Json::Open,
        Reply::Lists(lists, _) => json_lists(session, lists),
        Reply::Total(total) => Json::Total { total: *total },
        Reply::Reason(reason, _) => json_reason(session, reason),
        Reply::Absent(..) => Json::Absent,
        Reply::Desk(desk) => Json::Desk { desk: *desk },
        Reply::Holds(held) => Json::Holds {
            held: held
                .iter()
                .map(|(held, needs)| JsonHeld::of(design, held, Some(needs)))
                .collect(),
        },
        Reply::Rows(rows) => Json::Rows {
            tables: keys_by_table(session, rows).into_iter().collect(),
        },
        Reply::Refreshed(refreshed, rows) => json_refreshed(session, refreshed, *rows),
        Reply::Help => Json::Help {
            commands: COMMANDS.iter().map(|(_, form, _)| *form).collect(),
        },
        Reply::Quit => return Vec::new(),
        Reply::Trouble(trouble) => json_trouble(trouble),
        Reply::Mistakes(problems) => Json::Refused {
            cause: None,
            message: problems
                .iter()
                .map(|problem| problem.message.as_str())
                .collect::<Vec<_>>()
                .join("; "),
        },
    };
    crate::json::line(&json)
}

fn json_lists<'a>(session: &'a Session, lists: &Lists) -> Json<'a> {
    let tables = lists.tables.iter();
    let key = |row: &u16| session.row(*row).map_or("", |row| row.key.as_str());
    Json::Lists {
        tables: tables
            .map(|&table| session.design().tables[table].name.as_str())
            .collect(),
        lists: lists
            .lists
            .iter()
            .map(|list| list.iter().map(key).collect())
            .collect(),
    }
}

fn json_reason<'a>(session: &'a Session, reason: &Reason) -> Json<'a> {
    let design = session.design();
    let links = reason.steps.iter().map(|step| JsonStep::Link {
        link: design.link_name(&design.links[step.link]),
        from: row_name(session, step.from),
    });
    let load = JsonStep::Load(JsonLoad {
        load: &design.loads[reason.load].name,
        value: reason.wanted.to_string(),
    });
    Json::Reason {
        row: row_name(session, reason.row),
        steps: links.chain([load]).collect(),
    }
}

fn json_refreshed<'a>(session: &'a Session, refreshed: &Refreshed, rows: usize) -> Json<'a> {
    match refreshed {
        Refreshed::Kept {
            came,
            went,
            changed,
        } => Json::Refreshed {
            came: *came,
            went: *went,
            changed: *changed,
            rows,
            taken: session.taken(),
        },
        Refreshed::TooLarge { rows, dropped } => Json::TooLarge {
            rows: *rows,
            dropped: Some(
                dropped
                    .iter()
                    .map(|held| JsonHeld::of(session.design(), held, None))
                    .collect(),
            ),
        },
    }
}

fn json_trouble<'a>(trouble: &Trouble) -> Json<'a> {
    let message = trouble.to_string();
    match trouble {
        Trouble::Refused(refusal) => Json::Refused {
            cause: Some(refusal.cause.number()),
            message,
        },
        Trouble::Failed(_) | Trouble::Stale(_) => Json::Unreadable { message },
        _ => Json::Refused {
            cause: None,
            message,
        },
    }
}

/// A row by its table's name and its key.
fn row_name(session: &Session, row: u16) -> String {
    session.row(row).map_or_else(String::new, |row| {
        let table = &session.design().tables[row.identity.table].name;
        format!("{table} {}", row.key)
    })
}
