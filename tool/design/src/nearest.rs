//! The nearest name to one that was misspelt.

/// The candidate that a word was most likely meant to be, if one is near enough: the same but for capitals, or with at most a third of its
/// letters changed, left out, put in or swapped with a neighbour. Of equally near ones the first.
pub fn nearest<'a>(word: &str, candidates: impl IntoIterator<Item = &'a str>) -> Option<&'a str> {
    let folded = word.to_lowercase();
    let limit = folded.chars().count() / 3;
    let near = candidates.into_iter().filter_map(|candidate| {
        let away = distance(&folded, &candidate.to_lowercase());
        (away <= limit && candidate != word).then_some((away, candidate))
    });
    let first = near.min_by_key(|&(away, _)| away);
    first.map(|(_, candidate)| candidate)
}

/// How many letters have to be changed, left out, put in or swapped with a neighbour (optimal string alignment).
fn distance(left: &str, right: &str) -> usize {
    let left: Vec<char> = left.chars().collect();
    let right: Vec<char> = right.chars().collect();
    let mut before_last = Vec::new();
    let mut last: Vec<usize> = (0..=right.len()).collect();
    for row in 1..=left.len() {
        let next = next_row(&left, &right, row, &last, &before_last);
        before_last = std::mem::replace(&mut last, next);
    }
    last[right.len()]
}

fn next_row(
    left: &[char],
    right: &[char],
    row: usize,
    last: &[usize],
    before_last: &[usize],
) -> Vec<usize> {
    let mut next = vec![row];
    for column in 1..=right.len() {
        let changed = last[column - 1] + usize::from(left[row - 1] != right[column - 1]);
        let mut least = changed.min(last[column] + 1).min(next[column - 1] + 1);
        let swapped = row > 1
            && column > 1
            && left[row - 1] == right[column - 2]
            && left[row - 2] == right[column - 1];
        if swapped {
            least = least.min(before_last[column - 2] + 1);
        }
        next.push(least);
    }
    next
}

#[cfg(test)]
mod tests {
    use super::{distance, nearest};

    #[test]
    fn distances() {
        for (left, right, away) in [
            ("", "", 0),
            ("", "abc", 3),
            ("subjct_id", "subject_id", 1),
            ("form", "from", 1),
            ("kitten", "sitting", 3),
            ("é", "e", 1),
        ] {
            assert_eq!(distance(left, right), away, "{left} {right}");
            assert_eq!(distance(right, left), away, "{right} {left}");
        }
    }

    #[test]
    fn the_nearest_comes_first_and_the_far_not_at_all() {
        let names = ["subject", "recording", "event"];
        assert_eq!(nearest("subjects", names), Some("subject"));
        assert_eq!(nearest("RECORDING", names), Some("recording"));
        assert_eq!(nearest("evnet", names), Some("event"));
        assert_eq!(nearest("ward", names), None);
        assert_eq!(nearest("abc", ["xbc", "abx"]), Some("xbc"));
        assert_eq!(nearest("ab", ["xb", "AB"]), Some("AB"));
    }
}
