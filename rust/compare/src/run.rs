//! The comparison itself: two desks on script after script.

use std::fmt;
use std::io;
use std::sync::atomic::{AtomicU64, Ordering};
use std::thread;
use std::time::{Duration, Instant};

use crate::desk::Reply;
use crate::generate;
use crate::level::Level;
use crate::reduce::reduce;
use crate::tally::Tally;

const THREADS: usize = 2;

/// How long a difference may take to be made small. What has been taken out of
/// its script by then stays out.
const REDUCING_TIME: Duration = Duration::from_secs(30);

/// A desk: a script in, its reply out.
pub type Desk<'a> = dyn Fn(&[u8]) -> io::Result<Reply> + Sync + 'a;

/// A desk under the name that its replies are printed with.
#[derive(Clone, Copy)]
pub struct Side<'a> {
    /// The name.
    pub name: &'a str,
    /// The desk.
    pub desk: &'a Desk<'a>,
}

impl Side<'_> {
    /// What the desk gives for a script. A failure tells which desk it was.
    pub fn reply(&self, script: &[u8]) -> io::Result<Reply> {
        (self.desk)(script)
            .map_err(|error| io::Error::new(error.kind(), format!("{}: {error}", self.name)))
    }
}

/// The desk under comparison, and the one that it is held to.
pub type Sides<'a> = [Side<'a>; 2];

/// The second implementation, within this process.
pub const SECOND_IMPLEMENTATION: Side<'static> = Side {
    name: "the second implementation",
    desk: &|script| Ok(Reply::Report(reference::report(script).into_bytes())),
};

/// Generated scripts.
#[derive(Clone, Copy, Debug)]
pub struct Scripts {
    /// Their seed.
    pub seed: u64,
    /// How many of the seed's.
    pub count: u64,
    /// What they may use.
    pub level: Level,
}

impl Scripts {
    /// The script with the given number.
    pub fn script(&self, number: u64) -> Vec<u8> {
        self.level.script(generate::script(self.seed, number))
    }
}

/// What a comparison came to.
#[derive(Debug, Default)]
pub struct Outcome<'a> {
    /// What the scripts and the reports that the desk is held to showed.
    pub tally: Tally,
    /// The first script on which the two differ.
    pub difference: Option<Difference<'a>>,
}

/// A generated script on which the two differ.
#[derive(Debug)]
pub struct Difference<'a> {
    /// Its number among those of its seed.
    pub number: u64,
    /// Both replies on it.
    pub comparison: Comparison<'a>,
}

/// Compares on scripts, or until a difference.
pub fn compare<'a>(sides: &Sides<'a>, scripts: Scripts) -> io::Result<Outcome<'a>> {
    let next = AtomicU64::new(0);
    let work = || {
        let outcome = compare_some(sides, scripts, &next);
        // Whatever ended this thread's work before the last script ends the
        // other's too.
        next.store(scripts.count, Ordering::Relaxed);
        outcome
    };
    let mut whole = Outcome::default();
    thread::scope(|scope| {
        let threads: Vec<_> = (0..THREADS).map(|_| scope.spawn(work)).collect();
        for thread in threads {
            let part = thread.join().expect("comparing doesn't panic")?;
            whole.tally.merge(part.tally);
            let differences = whole.difference.into_iter().chain(part.difference);
            whole.difference = differences.min_by_key(|difference| difference.number);
        }
        Ok(whole)
    })
}

/// One thread's share: the scripts that no other thread has taken.
fn compare_some<'a>(
    sides: &Sides<'a>,
    scripts: Scripts,
    next: &AtomicU64,
) -> io::Result<Outcome<'a>> {
    let mut outcome = Outcome::default();
    loop {
        let number = next.fetch_add(1, Ordering::Relaxed);
        if number >= scripts.count {
            return Ok(outcome);
        }
        let comparison = Comparison::of(sides, scripts.script(number))?;
        if comparison.differs() {
            outcome.difference = Some(Difference { number, comparison });
            return Ok(outcome);
        }
        comparison.count_in(&mut outcome.tally);
    }
}

/// Both replies on one script.
#[derive(Clone, Debug)]
pub struct Comparison<'a> {
    /// The script.
    pub script: Vec<u8>,
    /// The names of the two desks.
    pub names: [&'a str; 2],
    /// What the desk gave, and what the one that it is held to gave.
    pub replies: [Reply; 2],
}

impl<'a> Comparison<'a> {
    /// Gives both a script.
    pub fn of(sides: &Sides<'a>, script: Vec<u8>) -> io::Result<Comparison<'a>> {
        let [desk, other] = sides;
        Ok(Comparison {
            names: [desk.name, other.name],
            replies: [desk.reply(&script)?, other.reply(&script)?],
            script,
        })
    }

    /// Whether the two differ in any byte, or didn't end well.
    pub fn differs(&self) -> bool {
        let [reply, expected] = &self.replies;
        reply.report().is_none() || reply != expected
    }

    /// Counts what the script and the report that the desk is held to show.
    pub fn count_in(&self, tally: &mut Tally) {
        let [_, expected] = &self.replies;
        if let Some(report) = expected.report() {
            tally.add(&self.script, &String::from_utf8_lossy(report));
        }
    }

    /// A difference on a smaller script than this one's.
    pub fn reduced(&self, sides: &Sides<'a>) -> io::Result<Comparison<'a>> {
        let start = Instant::now();
        let script = reduce(&self.script, |script| {
            start.elapsed() < REDUCING_TIME
                && Comparison::of(sides, script.to_vec()).is_ok_and(|both| both.differs())
        });
        Comparison::of(sides, script)
    }
}

impl fmt::Display for Comparison<'_> {
    fn fmt(&self, out: &mut fmt::Formatter<'_>) -> fmt::Result {
        writeln!(out, "script, {} bytes:", self.script.len())?;
        write!(out, "{}", notation::disassemble(&self.script))?;
        for (name, reply) in self.names.iter().zip(&self.replies) {
            writeln!(out, "{name}:")?;
            write!(out, "{reply}")?;
        }
        Ok(())
    }
}
