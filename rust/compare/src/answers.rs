//! The answers of a report, taken from its lines.

use std::cmp::Ordering;

/// A command's line in a report, and the lists after it.
pub struct Answer<'a> {
    /// The line without the command's number.
    pub text: &'a str,
    /// The lines of its lists.
    pub lists: Vec<&'a str>,
}

/// The answers of a report without its head. A query says how many lines follow it:
/// by itself, a line of numbers may be a list, or what would open a probe.
pub fn answers(operations: &str) -> Vec<Answer<'_>> {
    let mut answers = Vec::new();
    let mut lines = operations.lines();
    while let Some(line) = lines.next() {
        let (_, text) = line.split_once(' ').unwrap_or((line, ""));
        let lists = text.strip_prefix("answer ").and_then(number);
        let lists = lines.by_ref().take(lists.unwrap_or(0)).collect();
        answers.push(Answer { text, lists });
    }
    answers
}

impl Answer<'_> {
    /// The words of all its lists.
    pub fn list_words(&self) -> usize {
        let words = |list: &&str| list.split(' ').count();
        self.lists.iter().map(words).sum()
    }

    /// The words of its line.
    pub fn words(&self) -> Vec<&str> {
        self.text.split(' ').collect()
    }

    /// Whether it is the refusal of lists for which there are too few words.
    pub fn is_too_long(&self) -> bool {
        self.text.starts_with("refused 11 ")
    }

    /// Whether it is a query's answer.
    pub fn has_lists(&self) -> bool {
        self.text.starts_with("answer ")
    }

    /// The outcome that the answer counts under.
    pub fn outcome(&self) -> String {
        match self.words()[..] {
            ["answer", "0"] => "answer without lists".into(),
            ["answer", _] => "answer with lists".into(),
            ["uneven", i, j] => match number(i).cmp(&number(j)) {
                Ordering::Equal => "uneven with i = j".into(),
                Ordering::Less => "uneven with i < j".into(),
                Ordering::Greater => "uneven with i > j".into(),
            },
            ["knot", _] => "knot of 1 constraint".into(),
            ["knot", ref numbers @ ..] if numbers.len() < 4 => {
                format!("knot of {} constraints", numbers.len())
            }
            ["knot", ref numbers @ ..] if numbers.len() < 9 => "knot of 4 to 8 constraints".into(),
            ["knot", ..] => "knot of 9 constraints".into(),
            ["total", "0"] => "total of 0".into(),
            ["total", _] => "total above 0".into(),
            ["refused", cause, _] => format!("refused {cause}"),
            ["ground", ground, ..] => format!("ground {ground}"),
            [filling, _, _] if number(filling).is_some() => "opener".into(),
            ["row", _, "by", "value", ..] => "reason by a value".into(),
            ["row", _, "by", "range", ..] => "reason by a range".into(),
            ["row", _, "by", "constraint", ..] => "reason by a constraint".into(),
            ["rows", "0", "0"] => "rows without change".into(),
            ["rows", "0", _] => "rows that went".into(),
            ["rows", ..] => "rows that came".into(),
            ["desk", _] => "desk named".into(),
            ["loaded", ..] => "loaded".into(),
            ["dropped", ..] => "dropped".into(),
            _ => self.text.into(),
        }
    }
}

/// A word that is a number.
pub fn number(word: &str) -> Option<usize> {
    word.parse().ok()
}
