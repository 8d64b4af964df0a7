//! Random operations on a design. Most name something that is there; some are
//! spoilt on purpose. Those that move rows are in `rows`.

mod rows;

use notation::{
    Column, Command, Design, Join, Pair, Probe, Query, Range, Row, Total, Value, PAIRS,
};

use super::design::{Draft, Values, ISSUES};
use super::spoil::spoil;
use crate::random::Random;

/// The number of desks.
pub const DESKS: usize = 4;

/// The rows of a large design.
const LARGE: usize = 60;

/// In how many of a hundred cases an operation is spoilt.
const SPOILT: usize = 8;

/// In how many of a hundred cases a design command stands where an operation
/// should.
const MISPLACED: usize = 2;

/// Makes operations, and remembers what they referred to, or may have.
pub struct Operator<'a> {
    design: &'a Design,
    values: Values,
    /// The named desk.
    desk: usize,
    /// What each desk referred to.
    referred: [Vec<Pair>; DESKS],
    /// The ranges of each desk, as they have been joined.
    ranges: [Vec<Range>; DESKS],
    /// The rows by their numbers, as they come and go.
    rows: Vec<Option<Row>>,
}

impl<'a> Operator<'a> {
    pub fn new(draft: &'a Draft) -> Operator<'a> {
        Operator {
            design: &draft.design,
            values: draft.values,
            desk: 0,
            referred: Default::default(),
            ranges: Default::default(),
            rows: draft.design.rows.iter().copied().map(Some).collect(),
        }
    }

    pub fn operation(&mut self, random: &mut Random) -> Command {
        if random.percent(MISPLACED) {
            return *random.pick(&self.design.commands());
        }
        let operation = match random.below(31) {
            24 => self.name(random),
            25 => self.opener(random),
            26 => self.reason(random),
            27 => Command::Hold(self.hold(random)),
            28 => Command::Release(self.release(random)),
            29 => self.put(random),
            30 => self.take(random),
            0..=6 => Command::Refer(self.refer(random)),
            7..=10 => Command::Drop(self.drop(random)),
            11..=14 => Command::Probe(self.probe(random)),
            15 => report(random),
            _ => {
                let probe = self.probe(random);
                self.question(random, probe)
            }
        };
        let operation = if random.percent(SPOILT) {
            spoil(random, self.design, operation)
        } else {
            operation
        };
        self.reissue(random, operation)
    }

    /// The operation, in a few cases with another issue, or with a place for issue
    /// 0. They are more where values have issues.
    fn reissue(&self, random: &mut Random, mut operation: Command) -> Command {
        let chance = if self.values.have_issues() { 12 } else { 2 };
        if let Some(value) = value_of(&mut operation) {
            if random.percent(chance) {
                value.issue = Some(*random.pick(&ISSUES));
            }
        }
        operation
    }

    /// Why a row is cached, or one that isn't there.
    pub fn reason(&self, random: &mut Random) -> Command {
        Command::Reason(self.number(random) as u16)
    }

    /// What would open a probe. The second implementation tries every value, so that
    /// there are few of these on large designs.
    pub fn opener(&self, random: &mut Random) -> Command {
        let probe = self.probe(random);
        let rows = self.rows.iter().flatten().count();
        if rows > LARGE && random.percent(95) {
            return Command::Probe(probe);
        }
        Command::Opener(probe)
    }

    /// A query or a total of a value that may not be held, in a filling column,
    /// and then operations on the same value, or on another now and then.
    pub fn visit(&mut self, random: &mut Random) -> Vec<Command> {
        let pair = self.pair(random);
        let Some(probe) = self.probe_of(pair) else {
            return vec![self.operation(random)];
        };
        let mut commands = vec![self.question(random, probe)];
        for _ in 0..random.below(5) {
            commands.push(match random.below(9) {
                0 | 1 => Command::Probe(probe),
                2 | 3 => Command::Refer(pair),
                4 | 5 => Command::Drop(pair),
                6 | 7 => self.question(random, probe),
                _ => self.operation(random),
            });
        }
        commands
    }

    /// A query of a column and a value, or a total over it.
    fn question(&mut self, random: &mut Random, probe: Probe) -> Command {
        let query = self.query(random, probe);
        if random.percent(60) {
            Command::Query(query)
        } else {
            Command::Total(self.total(random, query))
        }
    }

    /// Names a desk.
    pub fn name(&mut self, random: &mut Random) -> Command {
        self.desk = random.below(DESKS);
        Command::Desk(self.desk as u8)
    }

    /// A pair to refer to, remembered from now on. It may be another desk's.
    pub fn refer(&mut self, random: &mut Random) -> Pair {
        let pair = match self.referred_by_any(random) {
            Some(pair) if random.percent(10) => pair,
            _ => self.pair(random),
        };
        self.referred[self.desk].push(pair);
        pair
    }

    pub fn drop(&mut self, random: &mut Random) -> Pair {
        match self.referred_by_any(random) {
            Some(pair) if random.percent(10) => return pair,
            _ => {}
        }
        let own = &mut self.referred[self.desk];
        if own.is_empty() || random.percent(10) {
            return self.pair(random);
        }
        let place = random.below(own.len());
        own.remove(place)
    }

    /// A range between two values, in half of the cases right beside one that the desk
    /// holds, or over a part of it.
    pub fn hold(&mut self, random: &mut Random) -> Range {
        let own = random.pick_any(&self.ranges[self.desk]).copied();
        let (one, other) = (self.pair(random), self.values.any(random).number);
        let number = one.value.number;
        let mut range = Range {
            filling: one.filling,
            low: number.min(other),
            high: number.max(other),
        };
        if let Some(own) = own.filter(|_| random.percent(50)) {
            range = match random.below(5) {
                0 => Range {
                    low: own.high.saturating_add(1),
                    high: own.high.saturating_add(1),
                    ..own
                },
                1 => Range {
                    low: own.low.saturating_sub(1),
                    high: own.low.saturating_sub(1),
                    ..own
                },
                2 => Range {
                    high: own.high.max(other),
                    ..own
                },
                3 => Range {
                    low: own.low.min(other),
                    ..own
                },
                _ => Range {
                    low: own.high,
                    ..own
                },
            };
        }
        self.join(range);
        range
    }

    /// Remembers a range of the desk, joined to those that it meets.
    pub fn join(&mut self, range: Range) {
        let ranges = &mut self.ranges[self.desk];
        let meets = |own: &Range| {
            own.filling == range.filling
                && u64::from(own.low) <= u64::from(range.high) + 1
                && u64::from(range.low) <= u64::from(own.high) + 1
        };
        let mut hull = range;
        for own in ranges.iter().filter(|own| meets(own)) {
            hull.low = hull.low.min(own.low);
            hull.high = hull.high.max(own.high);
        }
        ranges.retain(|own| !meets(own));
        ranges.push(hull);
    }

    /// A range that the desk may hold, or a part of one.
    pub fn release(&mut self, random: &mut Random) -> Range {
        let own = &mut self.ranges[self.desk];
        if own.is_empty() {
            let Pair { filling, value } = self.pair(random);
            let (low, high) = (value.number, value.number);
            return Range { filling, low, high };
        }
        let place = random.below(own.len());
        if random.percent(15) {
            let Range { low, .. } = own[place];
            return Range {
                high: low,
                ..own[place]
            };
        }
        own.remove(place)
    }

    /// A pair that some desk referred to.
    fn referred_by_any(&self, random: &mut Random) -> Option<Pair> {
        let desk = random.pick(&self.referred);
        random.pick_any(desk).copied()
    }

    /// A pair whose value is near an end of the candidates or one of the
    /// design's.
    fn pair(&self, random: &mut Random) -> Pair {
        let filling = random.below(self.design.fillings.len().max(1));
        let candidates = self.design.fillings.get(filling);
        let near_end = candidates.and_then(|range| match random.below(20) {
            0 => Some(range.low.wrapping_sub(1)),
            1 => Some(range.low),
            2 => Some(range.high),
            3 => Some(range.high.wrapping_add(1)),
            _ => None,
        });
        let near_end = near_end.map(Value::from);
        Pair {
            filling: filling as u8,
            value: near_end.unwrap_or_else(|| self.values.any(random)),
        }
    }

    /// A column and a value: referred to before, found in a row, in a unique column
    /// or in any, demanded by one, or any.
    fn probe(&self, random: &mut Random) -> Probe {
        let found = match random.below(14) {
            0..=3 => self.referred_probe(random),
            4..=7 => self.row_probe(random, |_| true),
            8 | 9 => self.unique_probe(random),
            10 | 11 => self.demanded_probe(random),
            _ => None,
        };
        found.unwrap_or_else(|| Probe {
            column: *random.pick(&self.design.columns()),
            value: self.values.any(random),
        })
    }

    fn referred_probe(&self, random: &mut Random) -> Option<Probe> {
        let pair = match random.pick_any(&self.referred[self.desk]) {
            Some(pair) if random.percent(70) => *pair,
            _ => self.referred_by_any(random)?,
        };
        self.probe_of(pair)
    }

    /// The filling's column and the value of a pair.
    fn probe_of(&self, pair: Pair) -> Option<Probe> {
        let filling = self.design.fillings.get(usize::from(pair.filling))?;
        Some(Probe {
            column: filling.column,
            value: pair.value,
        })
    }

    /// A value of a row, in one of the columns that pass a test.
    fn row_probe(&self, random: &mut Random, test: impl Fn(Column) -> bool) -> Option<Probe> {
        let row = self.live_row(random)?;
        let mut columns = self.design.columns();
        columns.retain(|&column| column.table == row.table && test(column));
        let column = *random.pick_any(&columns)?;
        let value = row.cell(column.column.into());
        (value.number != 0).then_some(Probe { column, value })
    }

    /// A value of a row in a unique column.
    pub fn unique_probe(&self, random: &mut Random) -> Option<Probe> {
        self.row_probe(random, |column| self.is_unique(column))
    }

    fn is_unique(&self, column: Column) -> bool {
        let table = self.design.tables[usize::from(column.table)];
        table.unique >> column.column & 1 == 1
    }

    /// Where a constraint ends, with a value that a row has where it starts.
    fn demanded_probe(&self, random: &mut Random) -> Option<Probe> {
        let constraint = random.pick_any(&self.design.constraints)?;
        let Column { table, column } = constraint.source;
        let row = self.live_row(random)?;
        let value = row.cell(usize::from(column));
        (row.table == table && value.number != 0).then_some(Probe {
            column: constraint.target,
            value,
        })
    }

    /// A query of a column and a value. The pair that it may refer is remembered.
    fn query(&mut self, random: &mut Random, probe: Probe) -> Query {
        let Probe { column, value } = probe;
        let mut fillings = (0..).zip(&self.design.fillings);
        if let Some((filling, _)) = fillings.find(|(_, filling)| filling.column == column) {
            self.referred[self.desk].push(Pair { filling, value });
        }
        let mut tables = vec![column.table];
        let mut joins = Vec::new();
        for _ in 0..random.within(0..=PAIRS) {
            let fitting = self.fitting_joins(&tables);
            if fitting.is_empty() {
                break;
            }
            let join = *random.pick(&fitting);
            let constraint = self.design.constraints[usize::from(join.constraint)];
            joins.push(join);
            tables.push(constraint.target.table);
        }
        Query::new(column, value, &joins)
    }

    /// The total of any cell that the lists of a query have.
    fn total(&self, random: &mut Random, query: Query) -> Total {
        let position = random.below(usize::from(query.joins) + 1);
        let table = match position.checked_sub(1) {
            None => query.column.table,
            Some(join) => {
                let constraint = usize::from(query.pairs[join].constraint);
                self.design.constraints[constraint].target.table
            }
        };
        let columns = self.design.tables[usize::from(table)].columns;
        Total {
            query,
            position: position as u8,
            column: random.below(columns.into()) as u8,
        }
    }

    /// The joins that may follow positions of these tables.
    fn fitting_joins(&self, tables: &[u8]) -> Vec<Join> {
        let mut joins = Vec::new();
        for (position, table) in (0..).zip(tables) {
            for (constraint, link) in (0..).zip(&self.design.constraints) {
                if link.source.table == *table {
                    joins.push(Join {
                        position,
                        constraint,
                    });
                }
            }
        }
        joins
    }
}

/// A report on the design.
pub fn report(random: &mut Random) -> Command {
    *random.pick(&[Command::Even, Command::Knot])
}

/// The value that an operation names.
fn value_of(operation: &mut Command) -> Option<&mut Value> {
    match operation {
        Command::Refer(pair) | Command::Drop(pair) => Some(&mut pair.value),
        Command::Probe(probe) | Command::Opener(probe) => Some(&mut probe.value),
        Command::Query(query) => Some(&mut query.value),
        Command::Total(total) => Some(&mut total.query.value),
        _ => None,
    }
}
