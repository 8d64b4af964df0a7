//! The commands of `ask`: each is read, carried out, and given a reply.

use design::{asked, nearest, words, Design, Place, Problem, Question, Word};
use session::{
    Answered, Held, Identity, Issued, Lists, Needs, Opener, Probed, Reason, Referred, Refreshed,
    Session, TooLarge, Trouble,
};
use wurzsige::Ground;

use crate::loads::named;

/// The commands with how they are written and what they do.
pub const COMMANDS: [(&str, &str, &str); 14] = [
    ("load", "load NAME VALUE", "load a value"),
    ("load", "load NAME LOW..HIGH", "load a range of numbers"),
    (
        "drop",
        "drop NAME VALUE | LOW..HIGH",
        "drop what was loaded",
    ),
    (
        "ask",
        "ask \"QUESTION\" VALUE",
        "ask a question of the design",
    ),
    (
        "ask",
        "ask T.C = VALUE [with U [by LINK], ..] [total U.D]",
        "ask any question",
    ),
    (
        "probe",
        "probe T.C = VALUE",
        "is the value complete in the column, and why",
    ),
    ("why", "why TABLE KEY", "why a row is here"),
    (
        "opener",
        "opener T.C = VALUE",
        "a load that would let the desk answer",
    ),
    ("desk", "desk N", "work at desk N, 0 to 3"),
    ("held", "held", "what the desks hold, and what it costs"),
    ("rows", "rows", "the rows that are here"),
    ("refresh", "refresh", "read the database as it is now"),
    ("help", "help", "this list"),
    ("quit", "quit", "end"),
];

/// What a command is answered.
pub enum Reply {
    /// Of `load`.
    Loaded(Referred),
    /// Of `drop`: the rows that went.
    Dropped(usize),
    /// Nothing was loaded: it needs more rows than a desk can have.
    TooLarge(TooLarge),
    /// Of `probe`: a yes.
    Complete(Ground, usize),
    /// The database has to be asked. What would change that.
    Sent(Opener),
    /// Of `opener`: the desk answers already.
    Open,
    /// Of `ask`: the lists, and why they are complete.
    Lists(Lists, Option<Ground>),
    /// Of `ask`: the total.
    Total(u64),
    /// Of `why`, with the desks that hold what it ends at.
    Reason(Reason, Vec<u8>),
    /// Of `why`: the row isn't here. Whether the database has it.
    Absent(String, bool),
    /// Of `desk`.
    Desk(u8),
    /// Of `held`.
    Holds(Vec<(Held, Needs)>),
    /// Of `rows`: the numbers of the rows.
    Rows(Vec<u16>),
    /// Of `refresh`, with the rows that are here.
    Refreshed(Refreshed, usize),
    /// Of `help`.
    Help,
    /// Of `quit`.
    Quit,
    /// It isn't carried out.
    Trouble(Trouble),
    /// It can't be read: mistakes with their places in the command.
    Mistakes(Vec<Problem>),
}

/// Carries out the command of a line; nothing if the line has none.
pub fn command(session: &mut Session, line: &str) -> Option<Reply> {
    let line = line.trim();
    if line.is_empty() || line.starts_with('#') {
        return None;
    }
    let (name, rest) = line.split_once(char::is_whitespace).unwrap_or((line, ""));
    let reply = match name {
        "load" => load(session, rest),
        "drop" => drop(session, rest),
        "ask" if rest.trim_start().starts_with('"') => ask_by_text(session, rest),
        "ask" => ask(session, line, rest),
        "probe" => probe(session, line, rest),
        "opener" => opener(session, line, rest),
        "why" => why(session, rest),
        "desk" => desk(session, rest),
        "held" => nothing(rest).and_then(|()| held(session)),
        "rows" => nothing(rest).and_then(|()| rows(session)),
        "refresh" => nothing(rest).and_then(|()| refresh(session)),
        "help" => Ok(Reply::Help),
        "quit" | "exit" => Ok(Reply::Quit),
        _ => Err(unknown(name).into()),
    };
    Some(reply.unwrap_or_else(|unanswered| match unanswered {
        Unanswered::Trouble(Trouble::TooLarge(large)) => Reply::TooLarge(large),
        Unanswered::Trouble(trouble) => Reply::Trouble(trouble),
        Unanswered::Mistakes(problems) => Reply::Mistakes(problems),
    }))
}

/// Why a command has no answer.
enum Unanswered {
    Trouble(Trouble),
    Mistakes(Vec<Problem>),
}

impl From<Trouble> for Unanswered {
    fn from(trouble: Trouble) -> Unanswered {
        Unanswered::Trouble(trouble)
    }
}

impl From<String> for Unanswered {
    fn from(message: String) -> Unanswered {
        Unanswered::Trouble(Trouble::Wrong(message))
    }
}

impl From<Problem> for Unanswered {
    fn from(problem: Problem) -> Unanswered {
        Unanswered::Mistakes(vec![problem])
    }
}

type Replied = Result<Reply, Unanswered>;

fn unknown(name: &str) -> String {
    let names = COMMANDS.iter().map(|(name, ..)| *name);
    match nearest(name, names) {
        Some(near) => format!("there is no command `{name}`: did you mean `{near}`?"),
        None => format!("there is no command `{name}`: `help` lists them"),
    }
}

/// How a command is written.
fn usage(name: &str) -> String {
    let forms = COMMANDS.iter().filter(|(command, ..)| *command == name);
    let forms: Vec<String> = forms.map(|(_, form, _)| format!("`{form}`")).collect();
    format!("write {}", forms.join(" or "))
}

fn nothing(rest: &str) -> Result<(), Unanswered> {
    match rest.trim() {
        "" => Ok(()),
        more => Err(format!("`{more}` has no meaning here").into()),
    }
}

/// The two words behind a command.
fn two(name: &str, rest: &str) -> Result<[Word; 2], Unanswered> {
    let found = words(rest).map_err(|problem| problem.message)?;
    found.try_into().map_err(|_| usage(name).into())
}

fn load(session: &mut Session, rest: &str) -> Replied {
    let [name, value] = two("load", rest)?;
    let load = named(session.design(), &name.text)?;
    let wanted = session.wanted(load, &value)?;
    Ok(Reply::Loaded(session.load(load, &wanted)?))
}

fn drop(session: &mut Session, rest: &str) -> Replied {
    let [name, value] = two("drop", rest)?;
    let load = named(session.design(), &name.text)?;
    let wanted = session.wanted(load, &value)?;
    Ok(Reply::Dropped(session.drop_load(load, &wanted)?.rows))
}

fn ask_by_text(session: &mut Session, rest: &str) -> Replied {
    let [text, value] = two("ask", rest)?;
    let design = session.design();
    let question = question(design, &text.text)?;
    let value = session.read(question.column, &value)?;
    answer(session, question, &value)
}

/// The question with a text; otherwise what is wrong with it.
fn question<'d>(design: &'d Design, text: &str) -> Result<&'d Question, String> {
    let mut questions = design.questions.iter();
    if let Some(question) = questions.find(|question| question.text == text) {
        return Ok(question);
    }
    let texts = design
        .questions
        .iter()
        .map(|question| question.text.as_str());
    Err(match nearest(text, texts) {
        Some(near) => format!("the design has no question \"{text}\": did you mean \"{near}\"?"),
        None => format!("the design has no question \"{text}\""),
    })
}

/// A question that isn't the design's, with its value.
fn free_question(
    session: &mut Session,
    line: &str,
    rest: &str,
) -> Result<(Question, Issued), Unanswered> {
    let asked = asked(session.design(), rest).map_err(|mut problems| {
        let before = line.len() - rest.len();
        for problem in &mut problems {
            let span = &mut problem.at.span;
            *span = span.start + before..span.end + before;
        }
        Unanswered::Mistakes(problems)
    })?;
    let value = session.read(asked.question.column, &asked.value)?;
    Ok((asked.question, value))
}

fn ask(session: &mut Session, line: &str, rest: &str) -> Replied {
    let (question, value) = free_question(session, line, rest)?;
    answer(session, &question, &value)
}

fn answer(session: &mut Session, question: &Question, value: &Issued) -> Replied {
    Ok(match session.ask(question, value)? {
        Answered::Lists(lists) => {
            let ground = match session.probe(question.column, value)? {
                Probed::Ground { ground, .. } => Some(ground),
                Probed::Sent => None,
            };
            Reply::Lists(lists, ground)
        }
        Answered::Total(total) => Reply::Total(total),
        Answered::Sent => Reply::Sent(session.opener(question.column, value)?),
    })
}

/// The column and the value behind `probe` or `opener`.
fn probed(session: &mut Session, line: &str, rest: &str) -> Result<(Place, Issued), Unanswered> {
    let (question, value) = free_question(session, line, rest)?;
    if !question.joins.is_empty() || question.total.is_some() {
        let name = line.split_whitespace().next().unwrap_or_default();
        return Err(usage(name).into());
    }
    Ok((question.column, value))
}

fn probe(session: &mut Session, line: &str, rest: &str) -> Replied {
    let (column, value) = probed(session, line, rest)?;
    Ok(match session.probe(column, &value)? {
        Probed::Ground { ground, rows } => Reply::Complete(ground, rows),
        Probed::Sent => Reply::Sent(session.opener(column, &value)?),
    })
}

fn opener(session: &mut Session, line: &str, rest: &str) -> Replied {
    let (column, value) = probed(session, line, rest)?;
    Ok(match session.opener(column, &value)? {
        Opener::Open => Reply::Open,
        opener => Reply::Sent(opener),
    })
}

fn why(session: &mut Session, rest: &str) -> Replied {
    let [name, key] = two("why", rest)?;
    let design = session.design();
    let names = design.tables.iter().map(|table| table.name.as_str());
    let Some(table) = names.clone().position(|table| table == name.text) else {
        return Err(match nearest(&name.text, names) {
            Some(near) => format!("there is no table `{}`: did you mean `{near}`?", name.text),
            None => format!("there is no table `{}`", name.text),
        }
        .into());
    };
    let key = session.read(session.key(table), &key)?;
    let row = format!("{} {key}", design.tables[table].name);
    let identity = Identity { table, key };
    session.usable()?;
    let reason = match session.number(&identity) {
        Some(number) => session.reason(number)?,
        None => None,
    };
    let Some(reason) = reason else {
        let there = session.is_there(&identity)?;
        return Ok(Reply::Absent(row, there));
    };
    let held = session.held().into_iter();
    let desks = held.filter(|held| held.load == reason.load && held.wanted == reason.wanted);
    let desks = desks.map(|held| held.desk).collect();
    Ok(Reply::Reason(reason, desks))
}

fn desk(session: &mut Session, rest: &str) -> Replied {
    let Ok(desk) = rest.trim().parse() else {
        return Err(usage("desk").into());
    };
    session.name_desk(desk)?;
    Ok(Reply::Desk(desk))
}

fn held(session: &mut Session) -> Replied {
    let held = session.held().into_iter();
    let held: Result<Vec<(Held, Needs)>, Trouble> = held
        .map(|held| Ok((held.clone(), session.needs(&held)?)))
        .collect();
    Ok(Reply::Holds(held?))
}

fn rows(session: &mut Session) -> Replied {
    session.usable()?;
    Ok(Reply::Rows(session.cached().collect()))
}

fn refresh(session: &mut Session) -> Replied {
    let refreshed = session.refresh()?;
    Ok(Reply::Refreshed(refreshed, session.cached().count()))
}
