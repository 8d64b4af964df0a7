//! Shows on a terminal that a fetch is under way, where it takes longer than a second.

use std::io::{self, IsTerminal, Write};
use std::sync::{Arc, Condvar, Mutex, MutexGuard, PoisonError};
use std::thread::{spawn, JoinHandle};
use std::time::{Duration, Instant};

use design::Place;
use source::{Condition, Failure, Record, Source, Value};

use crate::try_load::counted;

/// After how long a fetch is shown, and shown anew.
const PATIENCE: Duration = Duration::from_secs(1);

/// A source whose reading is shown where it takes long.
pub struct Watched {
    source: Box<dyn Source>,
    watcher: Option<Watcher>,
    rows: usize,
    fetches: usize,
}

impl Watched {
    /// Watches a source, if standard error is a terminal.
    pub fn new(source: Box<dyn Source>) -> Watched {
        Watched {
            source,
            watcher: io::stderr().is_terminal().then(Watcher::new),
            rows: 0,
            fetches: 0,
        }
    }

    /// Reads, and shows it if that takes long.
    fn watch<T>(&mut self, read: impl FnOnce(&mut dyn Source) -> T) -> T {
        if let Some(watcher) = &self.watcher {
            watcher.begin(so_far(self.rows, self.fetches));
        }
        let read = read(&mut *self.source);
        if let Some(watcher) = &self.watcher {
            watcher.end();
        }
        read
    }
}

/// What was read before.
fn so_far(rows: usize, fetches: usize) -> String {
    let fetches = match fetches {
        1 => "1 fetch".to_string(),
        _ => format!("{fetches} fetches"),
    };
    format!("{} in {fetches} so far", counted(rows, "row"))
}

impl Source for Watched {
    fn taken(&self) -> &str {
        self.source.taken()
    }

    fn fetch(&mut self, condition: &Condition) -> Result<Vec<Record>, Failure> {
        let found = self.watch(|source| source.fetch(condition))?;
        self.rows += found.len();
        self.fetches += 1;
        Ok(found)
    }

    fn with_key(&mut self, table: usize, key: &Value) -> Result<Option<Record>, Failure> {
        self.watch(|source| source.with_key(table, key))
    }

    fn values(&mut self, column: Place, most: usize) -> Result<Vec<(Value, u8)>, Failure> {
        self.watch(|source| source.values(column, most))
    }

    fn meant(&mut self, column: Place, texts: &[&str]) -> Result<Value, Failure> {
        self.source.meant(column, texts)
    }

    fn size(&mut self) -> Result<u64, Failure> {
        self.watch(|source| source.size())
    }

    fn refresh(&mut self) -> Result<(), Failure> {
        self.watch(|source| source.refresh())
    }
}

/// The thread that shows what takes long.
struct Watcher {
    shared: Arc<Shared>,
    thread: Option<JoinHandle<()>>,
}

/// What both threads know. Whoever writes to the terminal has it locked, so that nothing is shown of a reading that has ended.
#[derive(Default)]
struct Shared {
    reading: Mutex<Reading>,
    changed: Condvar,
}

#[derive(Default)]
struct Reading {
    /// When it began, and what was read before; none if nothing is being read.
    begun: Option<(Instant, String)>,
    /// For how many seconds it was shown to last.
    shown: u32,
    /// Nothing will be read any more.
    over: bool,
}

impl Shared {
    fn lock(&self) -> MutexGuard<'_, Reading> {
        self.reading.lock().unwrap_or_else(PoisonError::into_inner)
    }

    /// Shows readings that last until nothing is read any more.
    fn watch(&self) {
        let mut reading = self.lock();
        while !reading.over {
            let wait = match &reading.begun {
                None => Duration::MAX,
                Some((begun, _)) => {
                    (PATIENCE * (reading.shown + 1)).saturating_sub(begun.elapsed())
                }
            };
            if !wait.is_zero() {
                let waited = self.changed.wait_timeout(reading, wait);
                reading = waited.unwrap_or_else(PoisonError::into_inner).0;
                continue;
            }
            reading.shown += 1;
            if let Some((_, what)) = &reading.begun {
                show(&format!("reading for {} s; {what}", reading.shown));
            }
        }
    }
}

impl Watcher {
    fn new() -> Watcher {
        let shared = Arc::<Shared>::default();
        let watching = Arc::clone(&shared);
        let thread = Some(spawn(move || watching.watch()));
        Watcher { shared, thread }
    }

    fn begin(&self, what: String) {
        self.shared.lock().begun = Some((Instant::now(), what));
        self.shared.changed.notify_one();
    }

    fn end(&self) {
        let mut reading = self.shared.lock();
        reading.begun = None;
        if std::mem::take(&mut reading.shown) > 0 {
            show("");
        }
    }
}

impl Drop for Watcher {
    fn drop(&mut self) {
        self.shared.lock().over = true;
        self.shared.changed.notify_one();
        let _ = self.thread.take().map(JoinHandle::join);
    }
}

/// Shows a text in place of the terminal's last line.
fn show(text: &str) {
    let _ = write!(io::stderr(), "\r\u{1b}[K{text}");
    let _ = io::stderr().flush();
}
