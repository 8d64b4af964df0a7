//! Questions, reasons and openers of a session, beside the whole database.

use design::{Cells, Join, Place, Question, Total};
use session::{Answered, Cause, Identity, Opener, Trouble, Wanted};

use crate::oracle::{is, Holding, Key, What};
use crate::play::{same, Compared, Play, PLACES};
use crate::values::Val;

impl Play<'_, '_> {
    /// A question with joins that fit, and perhaps a total.
    pub fn any_question(&mut self) -> Question {
        let design = &self.world.design;
        let mut column = self.any_column();
        if self.random.percent(50) {
            column = design.loads[self.any_load()].column;
        }
        let mut question = Question {
            text: String::new(),
            column,
            joins: Vec::new(),
            total: None,
        };
        for _ in 0..self.random.below(4) {
            let positions = design.positions(&question);
            let position = self.random.below(positions.len());
            let links = 0..design.links.len();
            let fitting: Vec<usize> = links
                .filter(|&link| design.links[link].source.table == positions[position])
                .collect();
            if let Some(&link) = self.random.pick_any(&fitting) {
                question.joins.push(Join { position, link });
            }
        }
        if self.random.percent(40) {
            let cells = Cells::of(design);
            let position = self.random.below(question.joins.len() + 1);
            let table = design.positions(&question)[position];
            let column = self.world.tables[table].columns.len() - 1;
            question.total = cells
                .cell(Place { table, column })
                .map(|_| Total { position, column });
        }
        question
    }

    pub fn ask(&mut self) -> Compared {
        let question = self.any_question();
        let value = match self.random.percent(30) {
            true => self.value_at_a_source(question.column),
            false => self.any_value(question.column),
        };
        let issued = self.read(question.column, &value);
        self.oracle.follow(&self.oracle.held);
        let grounded = self.oracle.ground(question.column, &value).is_some();
        let loads = self.world.design.loads.iter();
        let load = loads
            .clone()
            .position(|load| load.column == question.column);
        let number = Self::number(&value);
        let refers = load.filter(|&load| {
            !grounded && self.is_candidate(load, number, number) && self.values_of_desk() < PLACES
        });
        let answered = self.session.ask(&question, &issued);
        let told = format!("question {question:?} for {value:?}");
        let is_answer = matches!(answered, Ok(Answered::Lists(_) | Answered::Total(_)));
        if let (Some(load), true) = (refers, is_answer) {
            self.oracle.held = self.held_with(load, What::Value(value.clone()));
            self.tally.count("question that loads", true);
        }
        match answered {
            Ok(Answered::Sent) => {
                same!((grounded, refers), (false, None), "{told} is sent");
                self.tally.count("question sent", true);
            }
            Ok(Answered::Total(total)) => {
                same!(grounded || refers.is_some(), true, "{told} is answered");
                same!(total, self.oracle.total(&question, &value), "{told}: total");
                self.tally.count("total", true);
                self.tally
                    .count("total of joins", !question.joins.is_empty());
            }
            Ok(Answered::Lists(lists)) => {
                same!(grounded || refers.is_some(), true, "{told} is answered");
                let rows: Vec<&[u16]> = lists.lists.iter().collect();
                same!(
                    rows.windows(2).all(|pair| pair[0] < pair[1]),
                    true,
                    "{told}: the desk's order"
                );
                let keys = rows
                    .iter()
                    .map(|list| list.iter().map(|&row| self.key(row).1).collect());
                let mut keys: Vec<Vec<String>> = keys.collect();
                keys.sort();
                let mut expected = self.oracle.lists(&question, &value);
                expected.sort();
                same!(keys, expected, "{told}: lists");
                if let Some(own) = self.database.lists(self.world, &question, &value) {
                    same!(keys, own, "{told}: lists by the database itself");
                }
                self.tally.count("lists", !keys.is_empty());
                self.tally.count("no list", keys.is_empty());
                self.tally
                    .count("lists of joins", rows.iter().any(|list| list.len() > 1));
                self.tally.count("lists over 50", keys.len() > 50);
            }
            Err(Trouble::TooLarge(large)) => {
                let Some(load) = refers else {
                    return Err(format!("{told} is too large without a load"));
                };
                let held = self.held_with(load, What::Value(value));
                self.needs(&held, large.rows)?;
                self.tally.count("question too large", true);
            }
            Err(Trouble::Refused(refusal)) if refusal.cause == Cause::AnswerTooLong => {
                let words =
                    self.oracle.count_lists(&question, &value) * (question.joins.len() as u64 + 1);
                same!(words > 1 << 20, true, "{told} is too long");
                self.tally.count("lists too long", true);
            }
            other => return Err(format!("{told}: {other:?}")),
        }
        self.same_rows()
    }

    /// That a row of an alias `$` has a key, in SQL.
    pub fn has_key(&self, key: &Key) -> String {
        let rows = self
            .session
            .cached()
            .filter_map(|row| self.session.row(row));
        let mut rows = rows.filter(|row| (row.identity.table, &row.key) == (key.0, &key.1));
        let identity: &Identity = &rows.next().expect("a cached row").identity;
        let column = &self.world.tables[key.0].columns[0];
        let value = Val::of(
            &identity.key.value,
            column.issue().map(|_| identity.key.issue),
        );
        is("$", column, &value)
    }

    pub fn reason(&mut self) -> Compared {
        let here: Vec<u16> = self.session.cached().collect();
        let Some(&row) = self.random.pick_any(&here) else {
            return Ok(());
        };
        let Ok(Some(reason)) = self.session.reason(row) else {
            return Err(format!("row {row} is cached without a reason"));
        };
        let mut to = row;
        for step in &reason.steps {
            let (from_key, to_key) = (self.key(step.from), self.key(to));
            // a `$` in a key would be taken for the alias
            if !from_key.1.contains('$') && !to_key.1.contains('$') {
                let leads = self
                    .oracle
                    .leads(step.link, &from_key, &to_key, |key| self.has_key(key));
                same!(
                    leads,
                    true,
                    "reason of {to_key:?} by link {} from {from_key:?}",
                    step.link
                );
            }
            to = step.from;
        }
        let holds = |held: &Holding, wanted: &Wanted| match (&held.what, wanted) {
            (What::Value(value), Wanted::Value(issued)) => {
                *value == Val::of(&issued.value, value.issue.map(|_| issued.issue))
            }
            (What::Range(a, b), Wanted::Range { low, high }) => (a, b) == (low, high),
            _ => false,
        };
        let held = self
            .oracle
            .held
            .iter()
            .any(|held| held.load == reason.load && holds(held, &reason.wanted));
        same!(held, true, "reason that ends at {:?}", reason.wanted);
        self.tally.count("reason", true);
        self.tally
            .count("reason of over 1 step", reason.steps.len() > 1);
        Ok(())
    }

    /// What is said to open a probe does, if it fits.
    pub fn opener(&mut self) -> Compared {
        let place = self.any_column();
        let value = self.any_value(place);
        let issued = self.read(place, &value);
        match self.session.opener(place, &issued) {
            Ok(Opener::Open) => self.probe_value(place, &value),
            Ok(Opener::NoneKnown) => {
                self.tally.count("none known", true);
                self.oracle.follow(&self.oracle.held);
                same!(
                    self.oracle.ground(place, &value),
                    None,
                    "an opener of what is open"
                );
                Ok(())
            }
            Ok(Opener::Load {
                load,
                value: opening,
            }) => {
                let column = self.world.column(self.world.design.loads[load].column);
                let what = What::Value(Val::of(
                    &opening.value,
                    column.issue().map(|_| opening.issue),
                ));
                let before = self.oracle.held.len();
                if self.values_of_desk() == PLACES {
                    return Ok(());
                }
                self.load_what(load, what)?;
                if self.oracle.held.len() == before {
                    self.tally.count("opener too large", true);
                    return Ok(());
                }
                self.tally.count("opener", true);
                self.oracle.follow(&self.oracle.held);
                same!(
                    self.oracle.ground(place, &value).is_some(),
                    true,
                    "what was said to open {} = {value:?}",
                    self.world.design.column_name(place)
                );
                self.probe_value(place, &value)
            }
            Err(trouble) => Err(format!("an opener: {trouble:?}")),
        }
    }
}
