//! What the search goes through.

use notation::{encode, Command, Design};

use crate::work::LONGEST_SCRIPT;

/// Which operations are repeated.
#[derive(Clone, Copy, Debug, PartialEq, Eq)]
pub enum Kind {
    /// REFERs.
    Refer,
    /// REFERs and DROPs, since a drop needs a load.
    Drop,
    /// Ranges that are held and released.
    Range,
    /// PROBEs.
    Probe,
    /// QUERYs.
    Query,
    /// Totals.
    Total,
    /// Openers.
    Opener,
    /// Reasons.
    Reason,
    /// Whether the design is even.
    Even,
    /// Smallest knots.
    Knot,
    /// Rows that go and come.
    Row,
    /// All of them.
    Mixed,
}

impl Kind {
    /// All kinds.
    pub const ALL: [Kind; 12] = [
        Kind::Refer,
        Kind::Drop,
        Kind::Range,
        Kind::Probe,
        Kind::Query,
        Kind::Total,
        Kind::Opener,
        Kind::Reason,
        Kind::Even,
        Kind::Knot,
        Kind::Row,
        Kind::Mixed,
    ];

    /// The kind's name.
    pub fn name(self) -> &'static str {
        match self {
            Kind::Refer => "refer",
            Kind::Drop => "drop",
            Kind::Range => "range",
            Kind::Probe => "probe",
            Kind::Query => "query",
            Kind::Total => "total",
            Kind::Opener => "opener",
            Kind::Reason => "reason",
            Kind::Even => "even",
            Kind::Knot => "knot",
            Kind::Row => "row",
            Kind::Mixed => "mixed",
        }
    }

    /// Whether the operations of this kind may have the command among them.
    pub fn allows(self, command: &Command) -> bool {
        let own = match command {
            Command::Refer(_) => matches!(self, Kind::Refer | Kind::Drop),
            Command::Drop(_) => self == Kind::Drop,
            Command::Hold(_) | Command::Release(_) => self == Kind::Range,
            Command::Probe(_) => self == Kind::Probe,
            Command::Query(_) => self == Kind::Query,
            Command::Total(_) => self == Kind::Total,
            Command::Opener(_) => self == Kind::Opener,
            Command::Reason(_) => self == Kind::Reason,
            Command::Even => self == Kind::Even,
            Command::Knot => self == Kind::Knot,
            Command::Put(_) | Command::Take(_) => self == Kind::Row,
            _ => return false,
        };
        own || self == Kind::Mixed
    }
}

/// A design, operations before those that count, and those that are repeated.
#[derive(Clone, Debug)]
pub struct Candidate {
    /// The design.
    pub design: Design,
    /// The operations before.
    pub before: Vec<Command>,
    /// The operations that are repeated.
    pub repeated: Vec<Command>,
}

impl Candidate {
    /// The script: as many of the repeated operations as fit.
    pub fn script(&self) -> Vec<u8> {
        let mut script = encode(&self.design.commands());
        script.extend(encode(&self.before));
        let repeated: Vec<Vec<u8>> = self.repeated.iter().map(Command::bytes).collect();
        for bytes in repeated.iter().cycle() {
            if script.len() + bytes.len() > LONGEST_SCRIPT {
                break;
            }
            script.extend(bytes);
        }
        script
    }

    /// How many operations the script has.
    pub fn operations(&self) -> usize {
        let design = self.design.commands().len();
        notation::split(&self.script()).len() - design
    }
}
