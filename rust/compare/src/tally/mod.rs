//! Counts scripts and their commands, and the answers, causes and extremes that
//! they and their reports show.
//!
//! - `names` has what is counted.
//! - `links` tells how a design's tables are linked, and `evenness` what is rare among
//!   designs that a report is on.
//! - `issues` tells where the issue of a value shows.
//! - `desks` tells what one desk meets of another.
//! - `reasons` tells how long the chains of reasons are, and what there was to choose.
//! - `ranges` tells which ranges meet, and what of values in them.
//! - `rows` tells what comes of rows that come and go.
//! - `openers` tells which loads would open a probe, and how.
//! - `fetching` tells what came of queries and totals that refer.
//! - `totals` tells what a total shows beside other questions.

mod desks;
mod evenness;
mod fetching;
mod issues;
mod links;
mod names;
mod openers;
mod ranges;
mod reasons;
mod rows;
mod totals;

use std::collections::BTreeMap;
use std::fmt;

use notation::{split, Command, Piece};
use reference::ANSWER_WORDS;

use crate::answers::{answers, number, Answer};
use crate::level::Level;
use crate::replay::Replay;
pub use names::{kind, COMMANDS, OUTCOMES};

/// The fewest words that are too many.
const TOO_MANY_WORDS: usize = ANSWER_WORDS + 2;

/// How many scripts there were, with how many commands of each kind, and how
/// often each outcome was reached.
#[derive(Clone, Debug, Default)]
pub struct Tally {
    scripts: u64,
    commands: BTreeMap<&'static str, Commands>,
    counts: BTreeMap<String, u64>,
}

/// The commands of one kind.
#[derive(Clone, Copy, Debug, Default, PartialEq, Eq)]
struct Commands {
    /// All that stand in scripts.
    given: u64,
    /// Those of accepted designs, and those behind END with an answer.
    answered: u64,
}

impl Tally {
    /// Counts what one script and its report show.
    pub fn add(&mut self, script: &[u8], report: &str) {
        let Some((head, operations)) = report.split_once('\n') else {
            return;
        };
        let pieces = split(script);
        let is_end = |piece: &Piece| *piece == Piece::Command(Command::End);
        let end = pieces.iter().position(is_end);
        let design = head_outcome(script, head);
        let accepted = design == "design accepted";
        let answers = answers(operations);
        self.scripts += 1;
        self.count_commands(
            &pieces,
            match end {
                Some(end) if accepted => end + 1 + answers.len(),
                _ => 0,
            },
        );
        self.count(design, 1);
        if !accepted {
            if let Some(outcome) = refused_issues(&pieces, head) {
                self.count(outcome.into(), 1);
            }
            return;
        }
        for answer in &answers {
            self.count(answer.outcome(), 1);
            self.count_answer_extremes(answer);
        }
        if answers.len() > 10_000 {
            self.count("over 10,000 commands".into(), 1);
        }
        if let Some(end) = end {
            for outcome in issues::accepted(&pieces[..end]) {
                self.count(outcome.into(), 1);
            }
            self.count_top_values(&pieces[..end], &pieces[end + 1..], &answers);
            for outcome in evenness::outcomes(script, head, &pieces[..end], &answers) {
                self.count(outcome.into(), 1);
            }
        }
        if answers.iter().any(Answer::is_too_long) {
            self.count_few_words_too_many(script, &answers);
        }
        for outcome in replayed(script) {
            self.count(outcome.into(), 1);
        }
    }

    /// Adds the counts of another tally.
    pub fn merge(&mut self, other: Tally) {
        self.scripts += other.scripts;
        for (kind, commands) in other.commands {
            let sum = self.commands.entry(kind).or_default();
            sum.given += commands.given;
            sum.answered += commands.answered;
        }
        for (outcome, count) in other.counts {
            self.count(outcome, count);
        }
    }

    /// The outcomes of a level that were never reached.
    pub fn missing(&self, level: Level) -> Vec<&'static str> {
        let of_level = OUTCOMES.into_iter().filter(|(since, _)| level.has(*since));
        let names = of_level.map(|(_, name)| name);
        names
            .filter(|name| !self.counts.contains_key(*name))
            .collect()
    }

    fn count(&mut self, outcome: String, count: u64) {
        *self.counts.entry(outcome).or_default() += count;
    }

    /// Counts the pieces of a script, of which the first `answered` had an
    /// answer.
    fn count_commands(&mut self, pieces: &[Piece], answered: usize) {
        for (number, piece) in pieces.iter().enumerate() {
            let commands = self.commands.entry(kind(piece)).or_default();
            commands.given += 1;
            commands.answered += u64::from(number < answered);
        }
    }

    fn count_answer_extremes(&mut self, answer: &Answer) {
        match answer.words()[..] {
            ["loaded", rows, rounds] => {
                if rows == "512" {
                    self.count("loaded 512 rows".into(), 1);
                }
                if number(rounds) > Some(255) {
                    self.count("loaded in over 255 rounds".into(), 1);
                }
            }
            ["ground", ground, rows] => self.count_rows(ground, rows),
            ["total", "18446744073709551615"] => self.count("total of 2^64 - 1".into(), 1),
            // Of a cell 1, as in the request.
            ["total", "35184372088832"] => self.count("total over 2^45 lists".into(), 1),
            _ => {}
        }
        match answer.list_words() {
            4_095 => self.count("answer of 4,095 words".into(), 1),
            4_096 => self.count("answer of 4,096 words".into(), 1),
            _ => {}
        }
    }

    /// Counts the rows behind a ground. By ground 3 there is always one.
    fn count_rows(&mut self, ground: &str, rows: &str) {
        match (ground, rows) {
            ("1" | "2", "0") => self.count(format!("ground {ground} without rows"), 1),
            ("1" | "2", _) => self.count(format!("ground {ground} with rows"), 1),
            _ => {}
        }
        if number(rows) > Some(255) {
            self.count("ground of over 255 rows".into(), 1);
        }
        if rows == "512" {
            self.count("ground of 512 rows".into(), 1);
        }
    }

    /// Counts where the largest value stands, for commands that did something
    /// with it.
    fn count_top_values(&mut self, design: &[Piece], operations: &[Piece], answers: &[Answer]) {
        let in_a_row = |piece: &Piece| match piece {
            Piece::Command(Command::Row(row)) => row.cells.contains(&u32::MAX),
            _ => false,
        };
        if design.iter().any(in_a_row) {
            self.count("2^32 - 1 in a row".into(), 1);
        }
        for (piece, answer) in operations.iter().zip(answers) {
            if let Some(outcome) = top_value_outcome(piece, answer) {
                self.count(outcome.into(), 1);
            }
        }
    }

    /// Counts the answers that two more words would have been enough for.
    fn count_few_words_too_many(&mut self, script: &[u8], expected: &[Answer]) {
        let report = reference::report_lending(script, TOO_MANY_WORDS);
        let operations = report.split_once('\n').map_or("", |(_, rest)| rest);
        let lent_more = answers(operations);
        let both = expected.iter().zip(&lent_more);
        let enough = both.filter(|(one, other)| one.is_too_long() && other.has_lists());
        let count = enough.count() as u64;
        if count > 0 {
            self.count("refused 11 for 4,098 words".into(), count);
        }
    }
}

impl fmt::Display for Tally {
    fn fmt(&self, out: &mut fmt::Formatter<'_>) -> fmt::Result {
        writeln!(out, "{:>9}  scripts", self.scripts)?;
        writeln!(out, "{:>9}  {:>9}  commands", "given", "answered")?;
        for kind in COMMANDS {
            let Commands { given, answered } = self.commands.get(kind).copied().unwrap_or_default();
            writeln!(out, "{given:>9}  {answered:>9}  {kind}")?;
        }
        writeln!(out, "{:>9}  outcomes", "reached")?;
        for (_, outcome) in OUTCOMES {
            let count = self.counts.get(outcome).copied().unwrap_or(0);
            writeln!(out, "{count:>9}  {outcome}")?;
        }
        Ok(())
    }
}

/// What comes of a script's commands behind END, as far as their answers alone
/// don't tell.
fn replayed(script: &[u8]) -> Vec<&'static str> {
    let mut outcomes = Vec::new();
    let Some(mut replay) = Replay::new(script) else {
        return outcomes;
    };
    let mut fetching = fetching::Watch::default();
    let mut rows = rows::Watch::default();
    while let Some(command) = replay.command() {
        outcomes.extend(totals::outcomes(&replay, &command));
        outcomes.extend(issues::outcomes(&replay, &command));
        outcomes.extend(desks::outcomes(&replay, &command));
        outcomes.extend(openers::outcomes(&replay, &command));
        outcomes.extend(reasons::outcomes(&replay, &command));
        outcomes.extend(ranges::outcomes(&replay, &command));
        outcomes.extend(rows.outcomes(&replay, &command));
        outcomes.extend(fetching.perform(&mut replay, &command));
    }
    outcomes
}

/// Whether the command at a place of the script is a report.
fn is_report(script: &[u8], place: &str) -> bool {
    let rest = number(place).and_then(|place| script.get(place..));
    let pieces = rest.map(split).unwrap_or_default();
    let report = [Command::Even, Command::Knot].map(Piece::Command);
    pieces.first().is_some_and(|piece| report.contains(piece))
}

/// The outcome that a report's first line shows. Only an over-long script is
/// refused with 4 at place 0: there, no count is passed yet.
fn head_outcome(script: &[u8], line: &str) -> String {
    let words: Vec<&str> = line.split(' ').collect();
    match words[..] {
        ["refused", "3", place] if is_report(script, place) => {
            "design refused 3 for a report".into()
        }
        ["refused", "4", "0"] => "design refused 4 for the script's length".into(),
        ["refused", "4", _] => "design refused 4 for a count".into(),
        ["refused", cause, _] => format!("design refused {cause}"),
        _ => "design accepted".into(),
    }
}

/// What a refused design shows about issues.
fn refused_issues(pieces: &[Piece], line: &str) -> Option<&'static str> {
    let ["refused", cause, place] = line.split(' ').collect::<Vec<_>>()[..] else {
        return None;
    };
    let place = number(place)?;
    let mut start = 0;
    let at = pieces.iter().position(|piece| {
        let is_here = start == place;
        start += piece.bytes().len();
        is_here
    });
    issues::refused(pieces, at?, cause)
}

/// The outcome of an operation on the largest value that did something.
fn top_value_outcome(piece: &Piece, answer: &Answer) -> Option<&'static str> {
    let Piece::Command(command) = piece else {
        return None;
    };
    let outcome = match (command, &answer.words()[..]) {
        (Command::Refer(pair), ["loaded", rows, _]) if *rows != "0" => {
            (pair.value, "2^32 - 1 loaded with rows")
        }
        (Command::Drop(pair), ["dropped", rows]) if *rows != "0" => {
            (pair.value, "2^32 - 1 dropped with rows")
        }
        (Command::Probe(probe), ["ground", ..]) => (probe.value, "2^32 - 1 probed with a ground"),
        (Command::Query(query), ["answer", lists]) if *lists != "0" => {
            (query.value, "2^32 - 1 queried with lists")
        }
        _ => return None,
    };
    (outcome.0.number == u32::MAX).then_some(outcome.1)
}

#[cfg(test)]
mod tests {
    use super::*;
    use notation::assemble;

    fn counted(reports: &[&str]) -> Vec<(String, u64)> {
        let mut tally = Tally::default();
        for report in reports {
            tally.add(&[], report);
        }
        tally.counts.into_iter().collect()
    }

    #[test]
    fn lines_are_counted_by_their_outcome() {
        let report = "design 1 1 1 1\n0 loaded 1 0\n1 answer 2\n0 3\n0 4\n2 loaded 0 0\n";
        let expected = [
            ("answer with lists".into(), 1),
            ("design accepted".into(), 1),
            ("loaded".into(), 2),
        ];
        assert_eq!(counted(&[report]), expected);
    }

    #[test]
    fn design_refusals_are_counted_apart() {
        let reports = [
            "refused 4 0\n",
            "refused 4 24\n",
            "refused 1 0\n",
            "design 0 0 0 0\n0 refused 1 1\n",
        ];
        let expected = [
            ("design accepted".into(), 1),
            ("design refused 1".into(), 1),
            ("design refused 4 for a count".into(), 1),
            ("design refused 4 for the script's length".into(), 1),
            ("refused 1".into(), 1),
        ];
        assert_eq!(counted(&reports), expected);
    }

    /// What is counted for scripts in the notation and their reports.
    fn counted_for(texts: &[&str]) -> Vec<(String, u64)> {
        let mut tally = Tally::default();
        for text in texts {
            let script = assemble(text).expect("a right text");
            tally.add(&script, &reference::report(&script));
        }
        tally.counts.into_iter().collect()
    }

    #[test]
    fn even_and_uneven_designs_are_counted() {
        let texts = [
            "end\neven\neven\n",
            "table 1\nconstraint 0.0 -> 0.0\nend\neven\n",
            "table 1\ntable 2\nconstraint 0.0 -> 1.0\nend\neven\n",
            "table 2\nconstraint 0.0 -> 0.1\nend\neven\n",
            "table 1\ntable 2\nconstraint 0.0 -> 1.0\nconstraint 1.1 -> 0.0\nend\neven\n",
            "table 1\ntable 2\nconstraint 1.1 -> 0.0\nconstraint 0.0 -> 1.0\nend\neven\n",
        ];
        let expected = [
            ("design accepted".into(), 6),
            ("even".into(), 4),
            ("even with a cycle".into(), 1),
            ("uneven with i < j".into(), 1),
            ("uneven with i = j".into(), 1),
            ("uneven with i > j".into(), 1),
        ];
        assert_eq!(counted_for(&texts), expected);
    }

    #[test]
    fn reports_before_end_are_counted_apart() {
        let texts = [
            "even\n",
            "table 1\neven\nend\n",
            "table 1\nprobe 0.0 = 1\nend\n",
        ];
        let expected = [
            ("design refused 3".into(), 1),
            ("design refused 3 for a report".into(), 2),
        ];
        assert_eq!(counted_for(&texts), expected);
    }

    #[test]
    fn commands_are_counted_with_and_without_an_answer() {
        let mut tally = Tally::default();
        for text in [
            "table 1\nend\nend\nprobe 0.0 = 1\nbytes 0xff 0xff\n",
            "end\nrefer 0 1\n",
            "row 0\nend\nrefer 0 1\n",
        ] {
            let script = assemble(text).expect("a right text");
            let mut other = Tally::default();
            other.add(&script, &reference::report(&script));
            tally.merge(other);
        }
        let counted = |kind| {
            let commands: Commands = tally.commands[kind];
            (commands.given, commands.answered)
        };
        assert_eq!(tally.scripts, 3);
        assert_eq!(counted("table"), (1, 1));
        assert_eq!(counted("row"), (1, 0));
        assert_eq!(counted("end"), (4, 3));
        assert_eq!(counted("probe"), (1, 1));
        assert_eq!(counted("refer"), (2, 1));
        assert_eq!(counted("no command"), (1, 1));
        assert!(tally.commands.keys().all(|kind| COMMANDS.contains(kind)));
    }

    #[test]
    fn extremes_of_answers_are_counted_too() {
        let lists = |count| "1 2 3\n".repeat(count);
        let report = format!(
            "design 1 1 1 512\n0 loaded 512 256\n1 loaded 511 255\n2 answer 1365\n{}3 answer 1364\n{}",
            lists(1_365),
            lists(1_364)
        );
        let expected = [
            ("answer of 4,095 words".into(), 1),
            ("answer with lists".into(), 2),
            ("design accepted".into(), 1),
            ("loaded".into(), 2),
            ("loaded 512 rows".into(), 1),
            ("loaded in over 255 rounds".into(), 1),
        ];
        assert_eq!(counted(&[&report]), expected);
        let report = format!("design 0 0 0 0\n{}", "7 refused 3 1\n".repeat(10_001));
        let counted = counted(&[&report]);
        assert!(counted.contains(&("over 10,000 commands".into(), 1)));
    }

    #[test]
    fn the_largest_value_counts_where_it_does_something() {
        let text = "table 1\nfilling 0.0 1..4294967295\nrow 0 4294967295\nend\n\
            probe 0.0 = 4294967295\nrefer 0 4294967295\nrefer 0 4294967295\n\
            probe 0.0 = 4294967295\nquery 0.0 = 4294967295\ndrop 0 4294967295\n";
        let script = assemble(text).expect("a right text");
        let mut tally = Tally::default();
        tally.add(&script, &reference::report(&script));
        let top = tally
            .counts
            .iter()
            .filter(|(name, _)| name.starts_with("2^32"));
        assert!(top.clone().all(|(_, &count)| count == 1), "{tally}");
        assert_eq!(top.count(), 5);
    }

    #[test]
    fn what_was_not_reached_is_missing() {
        let mut tally = Tally::default();
        let names = OUTCOMES.map(|(_, name)| name);
        assert_eq!(tally.missing(Level::NOW), names);
        let mut other = Tally::default();
        other.add(&[], "refused 6 3\n");
        tally.merge(other);
        let rest = names.into_iter().filter(|name| *name != "design refused 6");
        assert_eq!(tally.missing(Level::NOW), rest.collect::<Vec<_>>());
    }

    #[test]
    fn only_what_a_level_has_can_be_missing() {
        let missing = |request| Tally::default().missing(Level::before(request));
        assert!(missing(2).contains(&"even") && !missing(1).contains(&"even"));
        let referred = "query referred with lists";
        assert!(missing(3).contains(&referred) && !missing(2).contains(&referred));
        assert!(missing(1).contains(&"loaded"));
    }

    /// Two more words would change what is held behind the query, and so the
    /// probe; only the query counts.
    #[test]
    fn a_few_words_too_many_are_counted_once() {
        let rows = "row 0 1 2\n".repeat(50) + "row 0 1 3\n";
        let rows = rows + &"row 1 2\n".repeat(40) + &"row 1 3\n".repeat(49);
        let design = "table 2\ntable 1\nconstraint 0.1 -> 1.0\nfilling 0.0 1..9\n";
        let operations = "query 0.0 = 1 join 0 by 0\nprobe 0.0 = 1\n";
        let counted = counted_for(&[&format!("{design}{rows}end\n{operations}")]);
        assert!(counted.contains(&("refused 11 for 4,098 words".into(), 1)));
        assert!(counted.contains(&("query refused 11, its reference undone".into(), 1)));
    }
}
