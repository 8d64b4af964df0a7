//! Scripts that go to the extremes of what a command can give: rounds, rows,
//! words, and commands.

use notation::{
    encode, Column, Command, Constraint, Design, Filling, Join, Pair, Probe, Query, Table, Value,
};

use super::design::{Draft, Shape, Values};
use super::fetching::around;
use super::operations::report;
use super::with_operations;
use crate::random::Random;

const LONGEST_SCRIPT: usize = 65_536;

/// A query whose lists of two need 4,094, 4,096 or 4,098 words. Rows of table 0
/// fall into two groups, each of which demands its own rows of table 1.
pub fn words_around_the_limit(random: &mut Random) -> Vec<u8> {
    let lists = random.within(2_047..=2_049);
    let targets = random.within(30..=60);
    let groups = [(lists / targets, targets), (1, lists % targets)];
    let [asked, group] = [0, 1].map(|column| Column { table: 0, column });
    let target = Column {
        table: 1,
        column: 0,
    };
    let mut design = Design {
        tables: vec![table(2), table(1)],
        constraints: vec![Constraint {
            source: group,
            target,
        }],
        fillings: vec![every_value(asked)],
        rows: Vec::new(),
    };
    let values = Values::new(3, random.percent(50));
    let [key, groups_values @ ..] = [0, 1, 2].map(|place| values.get(place));
    for (value, (sources, targets)) in groups_values.into_iter().zip(groups) {
        for _ in 0..sources {
            design.add_row(0, &[key, value]);
        }
        for _ in 0..targets {
            design.add_row(1, &[value]);
        }
    }
    let join = Join {
        position: 0,
        constraint: 0,
    };
    let query = Query::new(asked, key, &[join]);
    let draft = Draft { design, values };
    let operations = around(random, query, Command::Query(query));
    let commands = [draft.design.commands(), operations].concat();
    with_operations(random, &draft, commands, 5)
}

/// A load along a chain of 257 to 512 rows.
pub fn many_rounds(random: &mut Random) -> Vec<u8> {
    let rows = random.within(257..=512);
    let draft = Draft::ring(random, rows, 0);
    loaded(random, draft)
}

/// A load of 512 rows: a chain, or one value in all rows of one or two tables.
pub fn all_rows(random: &mut Random) -> Vec<u8> {
    if random.percent(30) {
        let draft = Draft::ring(random, 512, 0);
        return loaded(random, draft);
    }
    let values = Values::new(1, random.percent(50));
    let [here, there] = [0, 1].map(|table| Column { table, column: 0 });
    let mut design = Design {
        tables: vec![table(1), table(1)],
        constraints: vec![Constraint {
            source: here,
            target: there,
        }],
        fillings: vec![every_value(here)],
        rows: Vec::new(),
    };
    let first = if random.percent(40) {
        512
    } else {
        random.within(1..=512)
    };
    for number in 0..512 {
        design.add_row(u8::from(number >= first), &[values.get(0)]);
    }
    loaded(random, Draft { design, values })
}

/// Over 10,000 loads and drops on a small design, with an END or a report among
/// them now and then, up to the longest script or a little less.
pub fn many_commands(random: &mut Random) -> Vec<u8> {
    let shape = Shape {
        fillings: 1..=2,
        rows: 0..=20,
        ..Shape::SPARSE
    };
    let draft = Draft::random(random, &shape);
    let fillings = draft.design.fillings.len().max(1);
    let mut script = encode(&draft.design.commands());
    let length = LONGEST_SCRIPT - random.below(1_000);
    loop {
        let pair = Pair {
            filling: random.below(fillings) as u8,
            value: draft.values.any(random),
        };
        let command = match random.below(20) {
            0 => Command::End,
            1 => report(random),
            2..=10 => Command::Refer(pair),
            _ => Command::Drop(pair),
        };
        let bytes = command.bytes();
        if script.len() + bytes.len() > length {
            return script;
        }
        script.extend(bytes);
    }
}

/// The design with a load, a probe and a drop of its first value, reasons for rows
/// in between, and some operations.
fn loaded(random: &mut Random, mut draft: Draft) -> Vec<u8> {
    let column = draft.design.fillings[0].column;
    draft.design.fillings[0] = every_value(column);
    let value = draft.values.get(0);
    let probe = Command::Probe(Probe { column, value });
    let drop = Command::Drop(Pair { filling: 0, value });
    let rows = draft.design.rows.len();
    let last = Command::Reason(rows as u16 - 1);
    let any = Command::Reason(random.below(rows) as u16);
    let operations = vec![refer(value), probe, last, any, drop];
    let commands = [draft.design.commands(), operations].concat();
    with_operations(random, &draft, commands, 5)
}

fn table(columns: u8) -> Table {
    Table { columns, unique: 0 }
}

pub fn every_value(column: Column) -> Filling {
    Filling {
        column,
        low: 1,
        high: u32::MAX,
    }
}

pub fn refer(value: Value) -> Command {
    Command::Refer(Pair { filling: 0, value })
}
