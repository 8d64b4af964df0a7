//! The smallest knot, worked out once, when it is asked for first.
//!
//! A knot is a pair of constraints that turns at a table, and a way back. Constraint
//! i weighs 65,536 less 2^(15 - i), so that the lighter of two sets is the smaller
//! one, or if they are of one size, the one whose rising numbers come first: a set of
//! n constraints weighs 65,536 n, less a number with a bit for each of them,
//! constraint 0 the highest. A lightest way comes to no table twice, and so uses
//! neither constraint of its pair, and none twice.

use crate::design::Design;
use crate::desk::Answer;
use crate::TABLES;

/// More than any set of constraints weighs.
const NO_WAY: u32 = u32::MAX / 4;

/// What is known: nothing if all zeros.
pub struct Knot {
    is_known: bool,
    /// Bit i for constraint i.
    constraints: u16,
}

impl Knot {
    /// The report on knots.
    #[inline]
    pub fn of(&mut self, design: &Design) -> Answer {
        if !self.is_known {
            self.is_known = true;
            self.constraints = lightest(design);
        }
        match self.constraints {
            0 => Answer::Even,
            constraints => Answer::Knot(constraints),
        }
    }
}

fn weight(number: usize) -> u32 {
    65_536 - (1 << (15 - number))
}

/// The lightest uneven set of constraints, or none.
fn lightest(design: &Design) -> u16 {
    let constraints = &design.constraint[..design.constraints];
    let ways = ways(design);
    let mut least = NO_WAY;
    for (i, ends) in constraints.iter().enumerate() {
        for (j, starts) in constraints.iter().enumerate() {
            let (target, source) = (ends.target, starts.source);
            if target.table != source.table || target.place == source.place {
                continue;
            }
            let pair = weight(i) + if i == j { 0 } else { weight(j) };
            let back = ways[usize::from(starts.target.table)][usize::from(ends.source.table)];
            least = least.min(pair + back);
        }
    }
    if least >= NO_WAY {
        return 0;
    }
    let count = least.div_ceil(65_536);
    ((65_536 * count - least) as u16).reverse_bits()
}

/// The weight of the lightest way from each table to each.
fn ways(design: &Design) -> [[u32; TABLES]; TABLES] {
    let mut ways = [[NO_WAY; TABLES]; TABLES];
    for (table, ways) in ways.iter_mut().enumerate() {
        ways[table] = 0;
    }
    for (number, constraint) in design.constraint[..design.constraints].iter().enumerate() {
        let [from, to] = [constraint.source, constraint.target].map(|c| usize::from(c.table));
        ways[from][to] = ways[from][to].min(weight(number));
    }
    for through in 0..TABLES {
        let on = ways[through];
        for ways in &mut ways {
            let here = ways[through];
            for (way, on) in ways.iter_mut().zip(on) {
                *way = (*way).min(here + on);
            }
        }
    }
    ways
}
