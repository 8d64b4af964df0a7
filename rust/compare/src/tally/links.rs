//! The ways along a design's constraints from table to table.

use notation::{Command, Piece};

/// A constraint's source and target tables.
pub type Link = (u8, u8);

/// The constraints among the commands of a design.
pub fn links(design: &[Piece]) -> Vec<Link> {
    let link = |piece: &Piece| match piece {
        Piece::Command(Command::Constraint(link)) => Some((link.source.table, link.target.table)),
        _ => None,
    };
    design.iter().filter_map(link).collect()
}

/// The fewest steps from constraint j's target table to constraint i's source
/// table.
pub fn way(links: &[Link], i: Option<usize>, j: Option<usize>) -> Option<usize> {
    let (to, _) = *links.get(i?)?;
    let (_, from) = *links.get(j?)?;
    let mut reached = vec![from];
    for steps in 0..=links.len() {
        if reached.contains(&to) {
            return Some(steps);
        }
        let next = links.iter().filter(|(source, _)| reached.contains(source));
        let next: Vec<u8> = next.map(|&(_, target)| target).collect();
        reached.extend(next);
    }
    None
}

/// Whether constraints lead from a table to itself, perhaps through others: once
/// those that lead to a table that none leaves are taken out, again and again,
/// some are left.
pub fn has_cycle(links: &[Link]) -> bool {
    let mut links = links.to_vec();
    loop {
        let count = links.len();
        let left: Vec<u8> = links.iter().map(|&(source, _)| source).collect();
        links.retain(|(_, target)| left.contains(target));
        if links.len() == count {
            return count > 0;
        }
    }
}

#[cfg(test)]
mod tests {
    use super::*;

    #[test]
    fn cycles_are_found_behind_other_tables() {
        assert!(!has_cycle(&[]));
        assert!(!has_cycle(&[(0, 1), (1, 2), (0, 2)]));
        assert!(has_cycle(&[(1, 1)]));
        assert!(has_cycle(&[(0, 1), (1, 2), (2, 1), (2, 3)]));
    }

    #[test]
    fn ways_are_counted_by_their_steps() {
        let links = [(0, 1), (1, 2), (2, 3), (3, 0), (0, 2), (5, 6)];
        let steps = |i, j| way(&links, Some(i), Some(j));
        assert_eq!(steps(1, 0), Some(0));
        assert_eq!(steps(0, 0), Some(3));
        assert_eq!(steps(0, 4), Some(2));
        assert_eq!(steps(3, 3), Some(2));
        assert_eq!(steps(5, 0), None);
        assert_eq!(steps(9, 0), None);
    }
}
