//! Carries a command out.

use std::fs;
use std::io::{self, IsTerminal, Write};
use std::path::Path;

use clap::CommandFactory;
use design::{script, Code};
use session::{Session, Trouble};
use source::Source;

use crate::check::Checked;
use crate::cli::{Arguments, Command, Format};
use crate::database::told as fail;
use crate::file::{File, Unreadable};
use crate::library::Refused;
use crate::loads::Asked;
use crate::output::{Page, When};
use crate::status::Status;
use crate::{cost, database, diff, draw, explain, init, json, page, report, shell, try_load};

/// Carries a command out, and says how to end.
pub fn run(arguments: &Arguments) -> Status {
    let color = arguments.color;
    let ended = match &arguments.command {
        Command::Init { source, output } => init(source, output.as_deref()),
        Command::Check { design, format } => check(design, *format, color),
        Command::Draw { design, output } => draw(design, output.as_deref(), color),
        Command::Page {
            design,
            output,
            source,
            value,
            no_source,
        } => page(
            design,
            output.as_deref(),
            source.as_deref(),
            value,
            *no_source,
            color,
        ),
        Command::Try {
            design,
            loads,
            source,
            format,
        } => try_loads(design, loads, source.as_deref(), *format, color),
        Command::Ask {
            design,
            source,
            format,
        } => ask(design, source.as_deref(), *format, color),
        Command::Diff {
            old,
            new,
            source,
            values,
            format,
        } => diff(old, new, source.as_deref(), values, *format, color),
        Command::Script {
            design,
            loads,
            rows: _,
            source,
            output,
        } => write_script(design, loads, source.as_deref(), output.as_deref(), color),
        Command::Explain { code } => explain(code.as_deref()),
        Command::Completion { shell } => completion(*shell),
    };
    ended.unwrap_or_else(|status| status)
}

/// How a command ends, early or not.
type Ended = Result<Status, Status>;

/// Writes to standard output. A reader that has gone away has read enough.
fn put(bytes: &[u8]) -> Result<(), Status> {
    let written = io::stdout()
        .write_all(bytes)
        .and_then(|()| io::stdout().flush());
    match written {
        Err(error) if error.kind() != io::ErrorKind::BrokenPipe => Err(fail(
            Status::Unreadable,
            &format!("standard output: {error}"),
        )),
        _ => Ok(()),
    }
}

/// Writes to a file, or to standard output.
fn put_to(output: Option<&Path>, bytes: &[u8]) -> Result<(), Status> {
    let Some(path) = output else {
        return put(bytes);
    };
    fs::write(path, bytes)
        .map_err(|error| fail(Status::Unreadable, &format!("{}: {error}", path.display())))
}

/// The library refuses what the tool has found right. That is the tool's fault, and no mistake of the design's.
fn refused(file: &File, refusal: Refused) -> Status {
    fail(
        Status::Refused,
        &format!(
            "{}: {refusal}, though no mistake was found; please report this",
            file.name
        ),
    )
}

fn unreadable(unreadable: &Unreadable) -> Status {
    match unreadable {
        Unreadable::Failed(message) => fail(Status::Unreadable, message),
        Unreadable::NotText(name, wrong) => fail(
            Status::Unreadable,
            &format!(
                "{name}:{}:{}: error[{}]: the file isn't text: {}",
                wrong.line,
                wrong.column,
                Code::E001.name(),
                wrong.message
            ),
        ),
    }
}

/// Opens a design that has to be without errors; they are told on standard error.
fn accepted(path: &Path, color: When) -> Result<File, Status> {
    let file = File::open(path).map_err(|error| unreadable(&error))?;
    if file.design().is_some() {
        return Ok(file);
    }
    let mut page = Page::for_errors(color);
    let checked = Checked::of(&file).map_err(|refusal| refused(&file, refusal))?;
    report::report(&mut page, &file, &checked);
    // if standard error is closed, the status alone has to do
    let _ = io::stderr().write_all(&page.into_bytes());
    Err(Status::Refused)
}

fn init(source: &str, output: Option<&Path>) -> Ended {
    let draft = init::draft(source).map_err(|(status, message)| fail(status, &message))?;
    put_to(output, draft.as_bytes())?;
    Ok(Status::Good)
}

fn check(path: &Path, format: Format, color: When) -> Ended {
    let file = match (File::open(path), format) {
        (Ok(file), _) => file,
        (Err(Unreadable::NotText(_, wrong)), Format::Json) => {
            put(&json::line(&json::Check::not_text(&wrong)))?;
            return Err(Status::Unreadable);
        }
        (Err(error), _) => return Err(unreadable(&error)),
    };
    let checked = Checked::of(&file).map_err(|refusal| refused(&file, refusal))?;
    match format {
        Format::Json => put(&json::line(&json::Check::of(&file, &checked)))?,
        Format::Text => {
            let mut page = Page::for_output(color);
            report::report(&mut page, &file, &checked);
            put(&page.into_bytes())?;
        }
    }
    Ok(checked.status())
}

fn draw(path: &Path, output: Option<&Path>, color: When) -> Ended {
    let form = draw::form(output).map_err(|message| fail(Status::Refused, &message))?;
    let file = accepted(path, color)?;
    let dot = draw::dot(&file).map_err(|refusal| refused(&file, refusal))?;
    let drawn = draw::rendered(dot, form).map_err(|message| fail(Status::Unreadable, &message))?;
    put_to(output, &drawn)?;
    Ok(Status::Good)
}

fn page(
    path: &Path,
    output: Option<&Path>,
    source: Option<&str>,
    values: &[String],
    no_source: bool,
    color: When,
) -> Ended {
    let file = accepted(path, color)?;
    let checked = Checked::of(&file).map_err(|refusal| refused(&file, refusal))?;
    let named = file.design().is_some_and(|design| design.source.is_some());
    let html = match !no_source && (named || source.is_some() || !values.is_empty()) {
        true => {
            let values = read_loads(&file, values)?;
            let mut source = database::open(&file, source, color)?;
            page::html_over(&file, &checked, &mut *source, &values)
        }
        false => page::html(&file, &checked),
    };
    let html = html.map_err(|failed| match failed {
        page::NoPage::Trouble(trouble) => troubled(&trouble),
        page::NoPage::Undrawn(message) => fail(Status::Unreadable, &message),
    })?;
    put_to(output, html.as_bytes())?;
    Ok(Status::Good)
}

/// A session over the database of a file's design.
fn open_session<'s>(file: &'s File, source: &'s mut dyn Source) -> Result<Session<'s>, Status> {
    let Some(design) = file.design() else {
        unreachable!("the design was accepted");
    };
    Session::open(design, source).map_err(|trouble| troubled(&trouble))
}

/// Tells why something isn't carried out.
fn troubled(trouble: &Trouble) -> Status {
    let status = match trouble {
        Trouble::Failed(_) | Trouble::Stale(_) => Status::Unreadable,
        _ => Status::Refused,
    };
    fail(status, &trouble.to_string())
}

fn read_loads(file: &File, loads: &[String]) -> Result<Vec<Asked>, Status> {
    let design = file.design().into_iter();
    let asked = design.flat_map(|design| loads.iter().map(|text| Asked::read(design, text)));
    let asked: Result<Vec<Asked>, String> = asked.collect();
    asked.map_err(|message| fail(Status::Refused, &message))
}

fn try_loads(
    path: &Path,
    loads: &[String],
    source: Option<&str>,
    format: Format,
    color: When,
) -> Ended {
    let file = accepted(path, color)?;
    let loads = read_loads(&file, loads)?;
    let mut source = database::open(&file, source, color)?;
    let mut page = Page::for_output(color);
    let mut worst = Status::Good;
    let tried = try_load::try_all(&file, &mut *source, &loads, |session, asked, tried| {
        worst = worst.max(try_load::status(tried));
        match format {
            Format::Json => page.bytes(&json::line(&try_load::Json::of(
                session.design(),
                asked,
                tried,
            ))),
            Format::Text => try_load::report(&mut page, &file, session, asked, tried),
        }
    });
    let read = tried.map_err(|trouble| troubled(&trouble))?;
    if format == Format::Text && worst == Status::Good {
        let size = source.size().map_err(|failure| troubled(&failure.into()))?;
        try_load::not_read(&mut page, size.saturating_sub(read as u64));
    }
    put(&page.into_bytes())?;
    Ok(worst)
}

fn ask(path: &Path, source: Option<&str>, format: Format, color: When) -> Ended {
    if path.to_str() == Some("-") {
        return Err(fail(
            Status::Refused,
            "standard input has the commands: name the design's file",
        ));
    }
    let file = accepted(path, color)?;
    let mut source = database::open(&file, source, color)?;
    let mut session = open_session(&file, &mut *source)?;
    shell::run(&mut session, format, color).map_err(|message| fail(Status::Unreadable, &message))
}

fn diff(
    old: &Path,
    new: &Path,
    source: Option<&str>,
    values: &[String],
    format: Format,
    color: When,
) -> Ended {
    let (old, new) = (accepted(old, color)?, accepted(new, color)?);
    let mut changes =
        diff::Changes::between(&old, &new).map_err(|refusal| refused(&new, refusal))?;
    if source.is_some() {
        changes.costs = Some(costs(&old, &new, source, values, color)?);
    }
    match format {
        Format::Json => put(&json::line(&changes))?,
        Format::Text => {
            let mut page = Page::for_output(color);
            diff::report(&mut page, &old, &new, &changes);
            put(&page.into_bytes())?;
        }
    }
    Ok(changes.status())
}

/// What loads cost with both designs on a database.
fn costs(
    old: &File,
    new: &File,
    source: Option<&str>,
    values: &[String],
    color: When,
) -> Result<Vec<cost::Costs>, Status> {
    let mut first = database::open(old, source, color)?;
    let mut second = database::open(new, source, color)?;
    let (Some(before), Some(after)) = (old.design(), new.design()) else {
        unreachable!("both designs were accepted");
    };
    let mut before = cost::Side {
        design: before,
        source: &mut *first,
    };
    let mut after = cost::Side {
        design: after,
        source: &mut *second,
    };
    cost::costs(&mut before, &mut after, values).map_err(|trouble| troubled(&trouble))
}

fn write_script(
    path: &Path,
    loads: &[String],
    source: Option<&str>,
    output: Option<&Path>,
    color: When,
) -> Ended {
    if output.is_none() && io::stdout().is_terminal() {
        return Err(fail(Status::Refused, "a script is bytes, and this is a terminal: name a file with --output, or a program behind a pipe"));
    }
    let file = accepted(path, color)?;
    let bytes = match loads.is_empty() {
        true => file.design().map(script).unwrap_or_default(),
        false => script_with_rows(&file, loads, source, color)?,
    };
    crate::library::Library::open(&bytes).map_err(|refusal| refused(&file, refusal))?;
    put_to(output, &bytes)?;
    Ok(Status::Good)
}

/// The script with the rows that loads need.
fn script_with_rows(
    file: &File,
    loads: &[String],
    source: Option<&str>,
    color: When,
) -> Result<Vec<u8>, Status> {
    let loads = read_loads(file, loads)?;
    let mut source = database::open(file, source, color)?;
    let mut session = open_session(file, &mut *source)?;
    for asked in &loads {
        let wanted = asked.wanted(&mut session);
        let loaded = wanted.and_then(|wanted| session.load(asked.load, &wanted));
        loaded.map_err(|trouble| troubled(&trouble))?;
    }
    Ok(session.script())
}

fn explain(code: Option<&str>) -> Ended {
    let text = match code {
        Some(code) => explain::page(code).map_err(|message| fail(Status::Refused, &message))?,
        None => explain::list(),
    };
    put(text.as_bytes())?;
    Ok(Status::Good)
}

fn completion(shell: clap_complete::Shell) -> Ended {
    let mut script = Vec::new();
    clap_complete::generate(shell, &mut Arguments::command(), "wurzsige", &mut script);
    put(&script)?;
    Ok(Status::Good)
}
