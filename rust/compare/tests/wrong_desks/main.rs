//! Desks that are right but for one thing: the comparison has to find it.

mod desks;
mod fetching;
mod grounds;
mod issues;
mod knots;
mod openers;
mod performing;
mod ranges;
mod reasons;
mod rows;
mod totals;

use compare::level::Level;
use performing::is_found;

#[test]
fn a_desk_that_performs_as_it_should_differs_nowhere() {
    let found = is_found(Level::NOW, |_, desk, command| desk.perform(command));
    assert!(!found);
}
