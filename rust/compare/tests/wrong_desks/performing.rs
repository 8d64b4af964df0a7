//! Desks that perform some commands in a way of their own.

use std::io;

use compare::desk::Reply;
use compare::level::Level;
use compare::run::{compare, Scripts, Side, SECOND_IMPLEMENTATION};
use reference::design::Design;
use reference::desk::{Answer, Desk};
use reference::refusal::{Cause, Refusal};
use reference::script::{read_command, Command, Pair, Probe, Query};
use reference::ANSWER_WORDS;

/// A desk that performs commands in a way of its own, with a memory that begins
/// empty, within a report that is right otherwise.
fn performing<M: Default>(
    perform: impl Fn(&mut M, &mut Desk, &Command) -> Result<Answer, Cause> + Sync,
) -> impl Fn(&[u8]) -> io::Result<Reply> + Sync {
    move |script| {
        let report = reference::report(script);
        let (head, _) = report.split_once('\n').expect("a line");
        let mut lines = vec![head.to_string()];
        if let Ok((design, mut place)) = Design::read(script) {
            let mut desk = Desk::new(design, ANSWER_WORDS);
            let mut memory = M::default();
            while place < script.len() {
                let read = read_command(script, place);
                let answer =
                    read.and_then(|(command, _)| perform(&mut memory, &mut desk, &command));
                let line = match answer {
                    Ok(answer) => answer.to_string(),
                    Err(cause) => Refusal { cause, place }.to_string(),
                };
                lines.push(format!("{} {line}", lines.len() - 1));
                place = read.map_or(script.len(), |(_, next)| next);
            }
        }
        Ok(Reply::Report((lines.join("\n") + "\n").into_bytes()))
    }
}

/// Whether the comparison finds a difference on scripts of the level.
pub fn is_found(
    level: Level,
    perform: impl Fn(&Design, &mut Desk, &Command) -> Result<Answer, Cause> + Sync,
) -> bool {
    is_found_remembering(level, |(): &mut (), desk, command| {
        let design = desk.design().clone();
        perform(&design, desk, command)
    })
}

/// The same of a desk that remembers something between commands.
pub fn is_found_remembering<M: Default>(
    level: Level,
    perform: impl Fn(&mut M, &mut Desk, &Command) -> Result<Answer, Cause> + Sync,
) -> bool {
    let desk = performing(perform);
    let name = "the desk";
    let sides = [Side { name, desk: &desk }, SECOND_IMPLEMENTATION];
    let scripts = Scripts {
        seed: 1,
        count: 3_000,
        level,
    };
    let outcome = compare(&sides, scripts).expect("no failure");
    outcome.difference.is_some()
}

/// Refers a query's value, if its column has a filling.
pub fn refer(design: &Design, desk: &mut Desk, query: &Query) {
    let mut fillings = design.fillings.iter();
    if let Some(filling) = fillings.position(|filling| filling.column == query.column) {
        let value = query.value;
        let _ = desk.perform(&Command::Refer(Pair { filling, value }));
    }
}

/// Whether a query's value has a ground, or an operand is wrong.
pub fn has_ground(desk: &mut Desk, query: &Query) -> bool {
    let (column, value) = (query.column, query.value);
    let probed = desk.perform(&Command::Probe(Probe { column, value }));
    !matches!(probed, Ok(Answer::Sent))
}
