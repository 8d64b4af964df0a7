//! A design over one snapshot of a database, of whatever kind.

use design::{Design, Place, Problem, Severity, Spans};

use crate::bind::{bind, Binding};
use crate::catalog::TableName;
use crate::database::{Cell, Database};
use crate::{counts, rows, Condition, Failure, NotOpened, Opened, Record, Source, Value};

struct Snapshot<D> {
    database: D,
    design: Design,
    spans: Spans,
    binding: Binding,
    taken: String,
    /// Why nothing more can be read.
    ended: Option<Failure>,
}

/// Takes a snapshot of a database, and holds a design to it.
pub(crate) fn open<D: Database + 'static>(
    mut database: D,
    design: &Design,
    spans: &Spans,
) -> Result<Opened, NotOpened> {
    let held = hold(&mut database, design, spans)?;
    Ok(Opened {
        source: Box::new(Snapshot {
            database,
            design: design.clone(),
            spans: spans.clone(),
            binding: held.binding,
            taken: held.taken,
            ended: None,
        }),
        warnings: held.warnings,
    })
}

/// A snapshot to which a design was held.
struct Held {
    taken: String,
    binding: Binding,
    warnings: Vec<Problem>,
}

fn hold(database: &mut dyn Database, design: &Design, spans: &Spans) -> Result<Held, NotOpened> {
    let names = design.tables.iter().filter_map(TableName::of);
    let taken = database.begin(&names.collect::<Vec<_>>())?;
    let bound = bind(database, design, spans)?;
    let Some(binding) = bound.binding else {
        return Err(NotOpened::refused(bound.problems));
    };
    let found = counts::look(database, design, spans, &binding)?;
    if !found.is_empty() {
        return Err(NotOpened::refused(found));
    }
    Ok(Held {
        taken,
        binding,
        warnings: bound.problems,
    })
}

impl From<Failure> for NotOpened {
    fn from(failure: Failure) -> NotOpened {
        match failure {
            Failure::Unreadable(why) => NotOpened::Unreadable(why),
            Failure::Unfit(why) => {
                let problem = Problem::new(design::Code::E031, 0..0, why);
                NotOpened::Problems(vec![problem])
            }
        }
    }
}

impl NotOpened {
    /// The errors alone, in the order of their places.
    fn refused(mut problems: Vec<Problem>) -> NotOpened {
        problems.retain(|problem| problem.code.severity() == Severity::Error);
        problems.sort_by_key(|problem| problem.at.span.start);
        NotOpened::Problems(problems)
    }

    /// As a failure, where there is no design's text to show.
    fn failure(self) -> Failure {
        match self {
            NotOpened::Unreadable(why) => Failure::Unreadable(why),
            NotOpened::Problems(problems) => {
                let told = problems.iter().map(|problem| {
                    let message = format!("{} ({})", problem.message, problem.code.name());
                    let notes = problem.notes.iter().map(|note| format!("; {note}"));
                    message + &notes.collect::<String>()
                });
                Failure::Unfit(told.collect::<Vec<_>>().join("\n"))
            }
        }
    }
}

impl<D: Database> Snapshot<D> {
    /// Reads, unless nothing more can be read. A database that can't be read once isn't asked again, since its snapshot may be gone.
    fn read<T>(
        &mut self,
        read: impl FnOnce(&mut D, &Design, &Binding) -> Result<T, Failure>,
    ) -> Result<T, Failure> {
        if let Some(ended) = &self.ended {
            return Err(ended.clone());
        }
        let got = read(&mut self.database, &self.design, &self.binding);
        if let Err(failure @ Failure::Unreadable(_)) = &got {
            self.ended = Some(failure.clone());
        }
        got
    }
}

impl<D: Database> Source for Snapshot<D> {
    fn taken(&self) -> &str {
        &self.taken
    }

    fn fetch(&mut self, condition: &Condition) -> Result<Vec<Record>, Failure> {
        self.read(|database, design, binding| rows::fetch(database, design, binding, condition))
    }

    fn with_key(&mut self, table: usize, key: &Value) -> Result<Option<Record>, Failure> {
        let column = self.binding.tables[table].key;
        let condition = Condition::Value {
            column: Place { table, column },
            value: key.clone(),
            issue: 0,
        };
        let mut records = self.fetch(&condition)?;
        Ok(records.pop())
    }

    fn size(&mut self) -> Result<u64, Failure> {
        self.read(|database, _, binding| {
            let mut size = 0;
            for table in &binding.tables {
                let sql = format!("SELECT count(*) FROM {} AS t", table.name);
                let rows = database.rows(&sql, &[])?;
                if let Some(Cell::Number(count)) = rows.first().and_then(|row| row.first()) {
                    size += u64::try_from(*count).unwrap_or(0);
                }
            }
            Ok(size)
        })
    }

    fn values(&mut self, column: Place, most: usize) -> Result<Vec<(Value, u8)>, Failure> {
        self.read(|database, design, binding| rows::values(database, design, binding, column, most))
    }

    fn meant(&mut self, column: Place, texts: &[&str]) -> Result<Value, Failure> {
        self.read(|database, design, binding| rows::meant(database, design, binding, column, texts))
    }

    fn refresh(&mut self) -> Result<(), Failure> {
        if let Some(ended) = &self.ended {
            return Err(ended.clone());
        }
        match hold(&mut self.database, &self.design, &self.spans) {
            Ok(held) => {
                self.binding = held.binding;
                self.taken = held.taken;
                Ok(())
            }
            Err(refused) => {
                let failure = refused.failure();
                self.ended = Some(failure.clone());
                Err(failure)
            }
        }
    }
}
