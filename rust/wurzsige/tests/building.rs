//! The builder: its bytes are those that the desk reads, and what it says of a refused
//! design is of the part at which the desk refuses it.

#![cfg(feature = "proved")]

mod common;

use common::all_examples;
use compare::generate;
use notation::{Command, Piece, split};
use wurzsige::{Builder, Cause, Column, Desk, Named, Operand, Part, Row, Value};

fn column(column: notation::Column) -> Column {
    Column::new(column.table, column.column)
}

/// The design of a script by the builder, with the places of its parts, up to what the
/// builder can't say.
fn built(script: &[u8]) -> (Builder, Vec<(usize, Part)>) {
    let mut builder = Builder::new();
    let (mut at, mut parts, mut counts) = (0, Vec::new(), [0; 4]);
    for piece in split(script) {
        let Piece::Command(command) = piece else {
            break;
        };
        let kind = match command {
            Command::Table(table) => {
                let named = |column| match table.unique >> column & 1 {
                    1 => Named::Unique("u"),
                    _ => Named::Plain("p"),
                };
                let columns: Vec<Named> = (0..table.columns.min(8)).map(named).collect();
                builder.table_of("t", &columns);
                0
            }
            Command::Constraint(constraint) => {
                builder.constraint(column(constraint.source), column(constraint.target));
                1
            }
            Command::Filling(filling) => {
                builder.filling(column(filling.column), filling.low..=filling.high);
                2
            }
            Command::Row(row) => {
                let cell = |column| {
                    let cell = row.cell(column);
                    Value::from((cell.number, cell.issue()))
                };
                builder.row(Row {
                    table: row.table,
                    cells: std::array::from_fn(cell),
                });
                3
            }
            _ => break,
        };
        let part = [Part::Table, Part::Constraint, Part::Filling, Part::Row][kind];
        parts.push((at, part(counts[kind])));
        counts[kind] += 1;
        at += command.bytes().len();
    }
    (builder, parts)
}

/// Opens a script by the builder, if the builder can say it, and by its bytes.
fn hold_to_open(script: &[u8]) -> Option<Cause> {
    let (builder, parts) = built(script);
    let bytes = builder.script();
    if !script.starts_with(&bytes) {
        return None;
    }
    match (builder.open(), Desk::open(&bytes)) {
        (Ok(desk), Ok(other)) => {
            assert_eq!(desk.to_memory(), other.to_memory());
            assert_eq!(*builder.design(), desk.design());
            assert_eq!(builder.design().verdicts(), Ok(desk.verdicts()));
            None
        }
        (Err(refused), Err(refusal)) => {
            assert_eq!(refused.refusal.cause, refusal.cause);
            assert_eq!(refused.refusal.place, refusal.place);
            let there = parts.iter().find(|&&(at, _)| Some(at) == refusal.place);
            assert_eq!(refused.part, there.map(|&(_, part)| part), "{refused}");
            let operand = matches!(refusal.cause, Cause::WrongOperand | Cause::ValueTwice);
            assert_eq!(refused.refusal.operand.is_some(), operand, "{refused}");
            // rows are no part of the design
            let of_a_row = matches!(refused.part, Some(Part::Row(_)) | None);
            let verdicts = builder.design().verdicts().map_err(|refusal| refusal.cause);
            match of_a_row {
                true => assert!(verdicts.is_ok(), "{refused}"),
                false => assert_eq!(verdicts, Err(Cause::Unlawful), "{refused}"),
            }
            Some(refusal.cause)
        }
        (builder, bytes) => panic!("{builder:?} by the builder, {bytes:?} by its bytes"),
    }
}

#[test]
fn the_examples_designs_can_be_built() {
    for example in all_examples() {
        let desk = Desk::open(&example.script).expect("a design");
        let (builder, _) = built(&example.script);
        assert_eq!(builder.script(), example.script[..desk.operations_at()]);
        assert_eq!(hold_to_open(&example.script), None);
    }
}

#[test]
fn refused_designs_name_the_part_that_the_desk_refuses() {
    let mut causes = [0; 14];
    for number in 0..4_000 {
        let script = generate::script(14, number);
        if let Some(cause) = hold_to_open(&script) {
            causes[usize::from(cause.number())] += 1;
        }
    }
    assert!(
        [4, 5, 6].iter().all(|&cause| causes[cause] > 4),
        "{causes:?}"
    );
}

/// A design that is right but for one thing, and what is told of it.
fn told(wrong: impl Fn(&mut Builder)) -> (Option<Part>, Option<Operand>, String) {
    use Named::{Plain, Unique};
    let mut builder = Builder::new();
    let [subject, ward] = builder.table("subjects", [Unique("number"), Plain("ward")]);
    let [_, of] = builder.table("recordings", [Plain("number"), Plain("subject")]);
    builder.constraint(subject, of);
    builder.filling(ward, 1..=99);
    assert!(builder.open().is_ok());
    wrong(&mut builder);
    let refused = builder.open().expect_err("it is wrong");
    (refused.part, refused.refusal.operand, refused.to_string())
}

#[test]
fn every_wrong_operand_has_its_name() {
    let there = Column::new(0, 1);
    let nowhere = Column::new(1, 2);
    let constraint = Some(Part::Constraint(1));
    let filling = Some(Part::Filling(1));
    let table = Some(Part::Table(2));
    let row = Some(Part::Row(0));
    type Wrong = fn(&mut Builder);
    let cases: [(Wrong, Option<Part>, Operand); 13] = [
        (|b| _ = b.table("none", []), table, Operand::Columns(0)),
        (
            |b| _ = b.table("many", [Named::Plain("c"); 9]),
            table,
            Operand::Columns(9),
        ),
        (
            |b| _ = b.table("more", [Named::Unique("c"); 300]),
            table,
            Operand::Columns(300),
        ),
        (
            |b| _ = b.constraint(Column::new(1, 2), Column::new(0, 1)),
            constraint,
            Operand::Source(nowhere),
        ),
        (
            |b| _ = b.constraint(Column::new(0, 1), Column::new(1, 2)),
            constraint,
            Operand::Target(nowhere),
        ),
        (
            |b| _ = b.constraint(Column::new(0, 0), Column::new(1, 1)),
            constraint,
            Operand::Twice(0),
        ),
        (
            |b| _ = b.filling(Column::new(1, 2), 1..=2),
            filling,
            Operand::Column(nowhere),
        ),
        (
            |b| _ = b.filling(Column::new(0, 1), 1..=2),
            filling,
            Operand::Column(there),
        ),
        (
            |b| _ = b.filling(Column::new(0, 0), 0..=2),
            filling,
            Operand::Low(0),
        ),
        (
            #[allow(clippy::reversed_empty_ranges)]
            |b| _ = b.filling(Column::new(0, 0), 3..=2),
            filling,
            Operand::High(2),
        ),
        (|b| _ = b.row(Row::new(2, [1])), row, Operand::Table(2)),
        (|b| _ = b.row(Row::new(0, [1, 2, 3])), row, Operand::Cell(2)),
        (
            |b| _ = b.row(Row::new(0, [(1, 0), (0, 1)])),
            row,
            Operand::Cell(1),
        ),
    ];
    for (number, (wrong, part, operand)) in cases.into_iter().enumerate() {
        let (told_part, told_operand, words) = told(wrong);
        assert_eq!(
            (told_part, told_operand),
            (part, Some(operand)),
            "{number}: {words}"
        );
        assert!(words.contains(&operand.to_string()), "{words}");
    }
}

#[test]
fn too_much_of_something_is_told_too() {
    let row = |builder: &mut Builder| {
        for _ in 0..513 {
            builder.row(Row::new(1, [5]));
        }
    };
    let (part, operand, words) = told(row);
    assert_eq!((part, operand), (Some(Part::Row(512)), None));
    assert!(
        words.starts_with("row 512, of recordings: refused for cause 4 at byte"),
        "{words}"
    );
    // A script that is too long has no faulty part.
    let (part, operand, words) = told(|builder| {
        for _ in 0..2_000 {
            builder.row(Row::new(1, [5]));
        }
    });
    assert_eq!((part, operand), (None, None));
    assert!(
        words.starts_with("refused for cause 4 at byte 0"),
        "{words}"
    );
}
