//! The smallest knot: the fewest constraints which, kept without the others, are
//! still uneven (document 02, Req 11). All sets are tried, up to 65,536 of them.

use crate::design::Design;
use crate::desk::Answer;

impl Design {
    /// What the report on knots says.
    pub fn knot(&self) -> Answer {
        if self.evenness() == Answer::Even {
            return Answer::Even;
        }
        let sizes = 1..=self.constraints.len();
        let mut knots = sizes.filter_map(|size| self.first_uneven(size, &mut Vec::new()));
        let knot = knots.next().expect("all constraints together are uneven");
        Answer::Knot(knot)
    }

    /// The first uneven set of so many constraints that begins with those given,
    /// its rising numbers compared one by one.
    fn first_uneven(&self, size: usize, set: &mut Vec<usize>) -> Option<Vec<usize>> {
        if set.len() == size {
            return self.is_uneven_alone(set).then(|| set.clone());
        }
        let next = set.last().map_or(0, |last| last + 1);
        for number in next..self.constraints.len() {
            set.push(number);
            let found = self.first_uneven(size, set);
            set.pop();
            if found.is_some() {
                return found;
            }
        }
        None
    }

    /// Whether the constraints of a set, kept without the others, are uneven.
    fn is_uneven_alone(&self, set: &[usize]) -> bool {
        let alone = Design {
            tables: self.tables.clone(),
            constraints: set.iter().map(|&i| self.constraints[i]).collect(),
            ..Design::default()
        };
        alone.evenness() != Answer::Even
    }
}
