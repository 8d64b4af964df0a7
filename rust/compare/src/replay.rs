//! Scripts replayed on the second implementation, command by command: what a
//! report doesn't show can be asked in between.

use reference::design::Design;
use reference::desk::{Answer, Desk};
use reference::held::Holding;
use reference::refusal::Cause;
use reference::script::{read_command, Command, Probe, Query};
use reference::ANSWER_WORDS;

/// What a command would answer.
pub type Tried = Result<Answer, Cause>;

/// A script with an accepted design, up to some command behind END.
pub struct Replay<'a> {
    script: &'a [u8],
    place: usize,
    desk: Desk,
}

impl Replay<'_> {
    /// Reads the design, if it is accepted.
    pub fn new(script: &[u8]) -> Option<Replay<'_>> {
        let (design, place) = Design::read(script).ok()?;
        Some(Replay {
            script,
            place,
            desk: Desk::new(design, ANSWER_WORDS),
        })
    }

    /// The design.
    pub fn design(&self) -> &Design {
        self.desk.design()
    }

    /// What is held.
    pub fn held(&self) -> &Holding {
        self.desk.held()
    }

    /// The desk, before the next command.
    pub fn desk(&self) -> &Desk {
        &self.desk
    }

    /// The byte at which the next command begins.
    pub fn place(&self) -> usize {
        self.place
    }

    /// The next command, if it can be read.
    pub fn command(&self) -> Option<Command> {
        let read = read_command(self.script, self.place).ok();
        read.map(|(command, _)| command)
    }

    /// What a command would answer in the next one's place.
    pub fn try_out(&self, command: &Command) -> Tried {
        self.desk.clone().perform(command)
    }

    /// What two commands would answer there, one after the other.
    pub fn try_out_both(&self, one: &Command, other: &Command) -> (Tried, Tried) {
        let mut desk = self.desk.clone();
        (desk.perform(one), desk.perform(other))
    }

    /// The ground of the value that the next command asks for, if it is a query
    /// or a total with right operands: nothing if it has none.
    pub fn ground(&self) -> Option<u8> {
        let Query { column, value, .. } = query_of(&self.command()?)?;
        match self.try_out(&Command::Probe(Probe { column, value })) {
            Ok(Answer::Ground { ground, .. }) => Some(ground),
            _ => None,
        }
    }

    /// Whether the next command has no ground and refers its value first, be it
    /// that the reference is undone.
    pub fn fetches(&self) -> bool {
        let Some(command @ (Command::Query(_) | Command::Total(_))) = self.command() else {
            return false;
        };
        let is_right = match self.try_out(&command) {
            Ok(answer) => answer != Answer::Sent,
            Err(cause) => matches!(cause, Cause::AnswerTooLong | Cause::TotalTooLarge),
        };
        is_right && self.ground().is_none()
    }

    /// Whether the next command is refused or sent only because the named desk holds
    /// as many values as it can.
    pub fn is_at_limit(&self) -> bool {
        let Some(command) = self.command() else {
            return false;
        };
        match (query_of(&command), self.try_out(&command)) {
            (None, Err(Cause::NoPlaceFree)) => true,
            (Some(Query { column, value, .. }), Ok(Answer::Sent)) => {
                let mut fillings = self.design().fillings.iter();
                let filling = fillings.find(|filling| filling.column == column);
                filling.is_some_and(|f| (f.low..=f.high).contains(&value.number))
            }
            _ => false,
        }
    }

    /// Passes over the next command.
    pub fn skip(&mut self) {
        if let Ok((_, next)) = read_command(self.script, self.place) {
            self.place = next;
        }
    }

    /// Carries out the next command. There is no answer if it can't be read.
    pub fn perform(&mut self) -> Option<Result<Answer, Cause>> {
        let command = self.command()?;
        self.skip();
        Some(self.desk.perform(&command))
    }
}

/// The query that a command has, if it is one or a total.
pub fn query_of(command: &Command) -> Option<Query> {
    match command {
        Command::Query(query) => Some(*query),
        Command::Total(total) => Some(total.query),
        _ => None,
    }
}
