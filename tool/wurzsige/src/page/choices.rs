//! Which values of the loads the page has boxes for: those that are given, or else some of the database's own, so few that the file stays small.

use design::Design;
use session::{Issued, Session, Trouble, Wanted};
use source::{Failure, Source};

use super::costs::Choice;
use crate::loads;
use crate::try_load::counted;

/// How many values of a column are counted.
const MOST_COUNTED: usize = 100_000;

/// How the values of a load were picked.
#[derive(Clone, Copy, Debug, PartialEq, Eq)]
pub enum Picked {
    /// They were given.
    Given,
    /// They are the lowest that the database has; so many more aren't on the page.
    Own {
        /// The values that aren't on the page.
        left: usize,
        /// Whether there may be more than that.
        more: bool,
    },
}

impl Picked {
    /// How they were picked, in words.
    pub fn told(self, here: usize) -> String {
        let values = |count| counted(count, "value");
        match self {
            Picked::Given if here == 0 => {
                "None of its values was given, and the page has none.".into()
            }
            Picked::Given => format!(
                "The page has the {} that {} given.",
                values(here),
                if here == 1 { "was" } else { "were" }
            ),
            Picked::Own { left: 0, .. } if here == 0 => "The database has no value for it.".into(),
            Picked::Own { left: 0, .. } => {
                format!("The page has all {} of the database.", values(here))
            }
            Picked::Own { left, more } => {
                let least = if more { "at least " } else { "" };
                format!("The page has the lowest {}; {least}{left} more aren't on it (--value LOAD=VALUE picks others).", values(here))
            }
        }
    }
}

/// The values that are given, each once.
pub fn given(
    session: &mut Session,
    given: &[loads::Asked],
) -> Result<(Vec<Choice>, Vec<Picked>), Trouble> {
    let mut choices = Vec::new();
    for asked in given {
        let choice = Choice {
            load: asked.load,
            wanted: asked.wanted(session)?,
        };
        if !choices.contains(&choice) {
            choices.push(choice);
        }
    }
    let picked = vec![Picked::Given; session.design().loads.len()];
    Ok((choices, picked))
}

/// The database's own values, so many of all loads together, of which each load has an equal share.
pub fn own(
    design: &Design,
    source: &mut dyn Source,
    most: usize,
) -> Result<(Vec<Choice>, Vec<Picked>), Failure> {
    let share = (most / design.loads.len().max(1)).max(1);
    let (mut choices, mut picked) = (Vec::new(), Vec::new());
    for (load, declared) in design.loads.iter().enumerate() {
        let found = source.values(declared.column, MOST_COUNTED)?;
        let more = found.len() == MOST_COUNTED;
        let values = found
            .into_iter()
            .map(|(value, issue)| Issued { value, issue });
        let values: Vec<Issued> = values
            .filter(|value| is_offered(declared.values, value))
            .collect();
        picked.push(Picked::Own {
            left: values.len().saturating_sub(share),
            more,
        });
        choices.extend(values.into_iter().take(share).map(|value| Choice {
            load,
            wanted: Wanted::Value(value),
        }));
    }
    Ok((choices, picked))
}

/// Whether a value is worth a box: one outside the load's bounds would only be told to be none of its values.
fn is_offered(bounds: Option<(u32, u32)>, value: &Issued) -> bool {
    let (Some((low, high)), source::Value::Number(number)) = (bounds, &value.value) else {
        return true;
    };
    (i64::from(low)..=i64::from(high)).contains(number)
}
