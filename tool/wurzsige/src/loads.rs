//! `LOAD=VALUE`, as the command line has it.

use design::{nearest, Design, Word};
use session::{Session, Trouble, Wanted};

/// A load of a design with what is loaded.
#[derive(Clone, Debug, PartialEq, Eq)]
pub struct Asked {
    /// The load's number.
    pub load: usize,
    /// The value, as it was given.
    pub word: Word,
}

impl Asked {
    /// Reads `LOAD=VALUE`; otherwise what is wrong with it.
    pub fn read(design: &Design, text: &str) -> Result<Asked, String> {
        let Some((name, value)) = text.split_once('=') else {
            return Err(format!("`{text}` is no load: write LOAD=VALUE"));
        };
        Ok(Asked {
            load: named(design, name)?,
            word: Word::plain(value),
        })
    }

    /// What the value means in the database.
    pub fn wanted(&self, session: &mut Session) -> Result<Wanted, Trouble> {
        session.wanted(self.load, &self.word)
    }
}

/// The number of the load with a name; otherwise what is wrong with it.
pub fn named(design: &Design, name: &str) -> Result<usize, String> {
    let names = design.loads.iter().map(|load| load.name.as_str());
    if let Some(load) = names.clone().position(|load| load == name) {
        return Ok(load);
    }
    Err(match nearest(name, names.clone()) {
        Some(near) => format!("there is no load `{name}`: did you mean `{near}`?"),
        None if design.loads.is_empty() => "the design has no loads".into(),
        None => format!(
            "there is no load `{name}`; the loads are {}",
            names.collect::<Vec<_>>().join(", ")
        ),
    })
}
