//! Whether a design's links can feed themselves (document 02, Req 01).

use crate::design::Design;
use crate::desk::Answer;

impl Design {
    /// What the report on even designs says: the lowest constraint i, and for it
    /// the lowest j, that make the design uneven, or that there are none.
    pub fn evenness(&self) -> Answer {
        let reaches = self.reaches();
        for i in 0..self.constraints.len() {
            for j in 0..self.constraints.len() {
                if self.is_uneven(&reaches, i, j) {
                    return Answer::Uneven { i, j };
                }
            }
        }
        Answer::Even
    }

    /// Whether constraint i ends and constraint j starts at one table but at
    /// different columns, and j's target table reaches i's source table.
    fn is_uneven(&self, reaches: &[Vec<bool>], i: usize, j: usize) -> bool {
        let (i, j) = (self.constraints[i], self.constraints[j]);
        i.target.table == j.source.table
            && i.target.column != j.source.column
            && reaches[j.target.table][i.source.table]
    }

    /// For each two tables, whether the first reaches the second along
    /// constraints in no or more steps.
    pub(crate) fn reaches(&self) -> Vec<Vec<bool>> {
        let tables = 0..self.tables.len();
        let mut reaches: Vec<Vec<bool>> = tables
            .clone()
            .map(|from| tables.clone().map(|to| from == to).collect())
            .collect();
        let mut changed = true;
        while changed {
            changed = false;
            for constraint in &self.constraints {
                for reached in &mut reaches {
                    if reached[constraint.source.table] && !reached[constraint.target.table] {
                        reached[constraint.target.table] = true;
                        changed = true;
                    }
                }
            }
        }
        reaches
    }
}
