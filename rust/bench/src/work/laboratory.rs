//! The longest script: a laboratory of 512 rows whose wards are loaded, reviewed
//! and dropped in turn.

use notation::{encode, Command, Design};

use super::{
    column, constraint, drop, filling, join, probe, query, refer, table, Work, LONGEST_SCRIPT,
    MOST_ROWS,
};

/// The wards, of which a design with few subjects has fewer.
pub const WARDS: u32 = 16;

/// The work: 65,536 bytes exactly.
pub fn full_script() -> Work {
    let design = laboratory(MOST_ROWS);
    let mut room = LONGEST_SCRIPT - encode(&design.commands()).len();
    let mut timed = Vec::new();
    for ward in (1..=WARDS).cycle() {
        let visit = visit(ward);
        let length = encode(&visit).len();
        if room < length + 30 {
            break;
        }
        timed.extend(visit);
        room -= length;
    }
    timed.extend(filler(room));
    Work {
        name: "laboratory: a script of 65,536 bytes",
        design,
        before: vec![],
        timed,
    }
}

/// Subjects (number, ward), recordings (number, subject) and events (recording,
/// kind), with so many rows in all: an eighth of them subjects, a quarter recordings.
pub fn laboratory(rows: usize) -> Design {
    let rows = rows as u32;
    let (subjects, recordings) = (rows / 8, rows / 4);
    let mut design = Design {
        tables: vec![table(2, 0b01), table(2, 0b01), table(2, 0)],
        constraints: vec![
            constraint(column(0, 0), column(1, 1)),
            constraint(column(1, 0), column(2, 0)),
        ],
        fillings: vec![filling(column(0, 1)), filling(column(1, 0))],
        rows: Vec::new(),
    };
    for subject in 0..subjects {
        design.add_row(0, &[1 + subject, 1 + subject % WARDS]);
    }
    for recording in 0..recordings {
        design.add_row(1, &[1 + recording, 1 + recording % subjects]);
    }
    for event in 0..rows - subjects - recordings {
        design.add_row(2, &[1 + event % recordings, 1 + event % 4]);
    }
    design
}

/// What the desk is asked about a ward while the ward before it is still held.
fn visit(ward: u32) -> Vec<Command> {
    let before = (ward + WARDS - 2) % WARDS + 1;
    vec![
        probe(column(0, 1), ward),
        refer(0, ward),
        refer(1, ward),
        query(column(0, 1), ward, &[join(0, 0), join(1, 1)]),
        probe(column(1, 1), ward),
        probe(column(0, 0), ward),
        probe(column(2, 1), 1),
        query(column(1, 1), ward, &[join(0, 1)]),
        drop(1, ward),
        refer(0, before),
        drop(0, before),
    ]
}

/// Operations of exactly so many bytes, which are at least 30: REFERs of 6 and
/// PROBEs of 7.
fn filler(bytes: usize) -> Vec<Command> {
    let probes = bytes % 6;
    let refers = (bytes - 7 * probes) / 6;
    let mut commands = vec![probe(column(0, 0), 1); probes];
    commands.resize(probes + refers, refer(0, 1));
    commands
}
