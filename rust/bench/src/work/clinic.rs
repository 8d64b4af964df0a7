//! Everyday works on one design: a clinic with as many links between its tables
//! as one may expect.

use notation::{Command, Design, Query};

use super::{
    column, constraint, drop, filling, join, load_and_drop, probe, refer, table, total, Work,
};

const WARDS: u32 = 10;
const SUBJECTS: u32 = 40;
const RECORDINGS: u32 = 80;
const EPOCHS: u32 = 160;
const EVENTS: u32 = 220;
const STAFF: u32 = 12;

const FIRST_RECORDING: u32 = 1_000;
const FIRST_EPOCH: u32 = 5_000;

/// The works.
pub fn works() -> Vec<Work> {
    let all_wards = || (1..=WARDS).map(|ward| refer(0, ward)).collect();
    let recordings = || load_and_drop(1, FIRST_RECORDING..FIRST_RECORDING + RECORDINGS);
    let work =
        |name, before, operations: &[Command]| Work::repeating(name, clinic(), before, operations);
    vec![
        work("clinic: query with 4 joins", all_wards(), &queries(true)),
        work("clinic: query without joins", all_wards(), &queries(false)),
        work(
            "clinic: query that loads its ward, and drop",
            vec![],
            &fetches(),
        ),
        work("clinic: total over 4 joins", all_wards(), &totals()),
        work(
            "clinic: probe",
            (1..=WARDS / 2).map(|ward| refer(0, ward)).collect(),
            &probes(),
        ),
        work(
            "clinic: load and drop of a recording, one ward held",
            vec![refer(0, 1)],
            &recordings(),
        ),
        work(
            "clinic: load and drop of a recording, all wards held",
            all_wards(),
            &recordings(),
        ),
        work(
            "clinic: load and drop of a ward",
            vec![],
            &load_and_drop(0, 1..=WARDS),
        ),
        work(
            "clinic: load of a ward held already",
            vec![refer(0, 1)],
            &[refer(0, 1)],
        ),
    ]
}

/// Subjects (number, ward), recordings (number, subject, technician), epochs
/// (number, recording, scorer), events (epoch, kind) and staff (number, role).
fn clinic() -> Design {
    let mut design = Design {
        tables: vec![
            table(2, 0b01),
            table(3, 0b001),
            table(3, 0b001),
            table(2, 0),
            table(2, 0b01),
        ],
        constraints: vec![
            constraint(column(0, 0), column(1, 1)),
            constraint(column(1, 0), column(2, 1)),
            constraint(column(2, 0), column(3, 0)),
            constraint(column(1, 2), column(4, 0)),
            constraint(column(2, 2), column(4, 0)),
        ],
        fillings: vec![filling(column(0, 1)), filling(column(1, 0))],
        rows: Vec::new(),
    };
    for n in 0..SUBJECTS {
        design.add_row(0, &[1 + n, 1 + n % WARDS]);
    }
    for n in 0..RECORDINGS {
        design.add_row(1, &[FIRST_RECORDING + n, 1 + n % SUBJECTS, 1 + n % STAFF]);
    }
    for n in 0..EPOCHS {
        let recording = FIRST_RECORDING + n % RECORDINGS;
        design.add_row(2, &[FIRST_EPOCH + n, recording, 1 + n % (STAFF - 1)]);
    }
    for n in 0..EVENTS {
        design.add_row(3, &[FIRST_EPOCH + n % EPOCHS, 1 + n % 4]);
    }
    for n in 0..STAFF {
        design.add_row(4, &[1 + n, 1 + n % 3]);
    }
    design
}

/// For each ward: its subjects, or these with their recordings, the epochs and
/// technicians of these, and the epochs' events.
fn wards(joined: bool) -> impl Iterator<Item = Query> {
    let joins = [join(0, 0), join(1, 1), join(1, 3), join(2, 2)];
    let count = if joined { joins.len() } else { 0 };
    (1..=WARDS).map(move |ward| Query::new(column(0, 1), ward, &joins[..count]))
}

fn queries(joined: bool) -> Vec<Command> {
    wards(joined).map(Command::Query).collect()
}

/// For each ward: the query with joins while it isn't held, and its drop.
fn fetches() -> Vec<Command> {
    let visit = |query: Query| [Command::Query(query), drop(0, query.value.number)];
    wards(true).flat_map(visit).collect()
}

/// For each ward: the kinds of its events added up.
fn totals() -> Vec<Command> {
    wards(true).map(|query| total(query, 4, 1)).collect()
}

/// Probes of columns 0 and 1 of all tables; a third of the values are small.
fn probes() -> Vec<Command> {
    let one = |number: u32| {
        let column = column((number % 5) as u8, (number / 5 % 2) as u8);
        match number % 3 {
            0 => probe(column, 1 + number / 15 % WARDS),
            _ => probe(column, FIRST_RECORDING + number),
        }
    };
    (0..200).map(one).collect()
}
