//! That the works are what their names say, by the reports on them; and that all
//! contestants do the same on them.

use bench::contestant::{Answer, Contestant, OpenDesk, Opening, Operation, Operations};
use bench::contestants;
use bench::measure::{check, measure};
use bench::work::opening::openings;
use bench::work::{self, growing, unreached, Work};
use notation::Command;

const SIZES: [usize; 4] = [64, 128, 256, 512];

/// The first answers of a work's report, without the lists in it.
fn answers(work: &Work, count: usize) -> Vec<String> {
    let start = Work {
        timed: work.timed[..count.min(work.timed.len())].to_vec(),
        ..work.clone()
    };
    let report = reference::report(&start.script());
    let lines = report
        .lines()
        .skip(1)
        .filter_map(|line| line.split_once(' '));
    lines
        .map(|(_, answer)| answer.to_string())
        .filter(|answer| answer.starts_with(char::is_alphabetic))
        .collect()
}

fn find(works: Vec<Work>, name: &str) -> Work {
    let mut works = works.into_iter();
    works.find(|work| work.name == name).expect("a work")
}

fn grown(rows: usize, name: &str) -> Work {
    let work = find(growing::works(rows), name);
    assert_eq!(work.design.rows.len(), rows);
    work
}

#[test]
fn works_differ_in_name_and_fill_a_script() {
    let works: Vec<Work> = work::all()
        .into_iter()
        .chain(work::hostile::questions())
        .collect();
    for (number, work) in works.iter().enumerate() {
        let length = work.script().len();
        assert!(
            length <= 65_536 && length > 60_000,
            "{}: {length}",
            work.name
        );
        assert!(works[..number].iter().all(|other| other.name != work.name));
    }
}

#[test]
fn a_chain_takes_a_round_for_each_row() {
    for rows in SIZES {
        let expected = [
            format!("loaded {rows} {}", rows - 1),
            format!("dropped {rows}"),
        ];
        assert_eq!(answers(&grown(rows, "chain: load and drop"), 2), expected);
    }
}

#[test]
fn a_ring_is_loaded_whole() {
    for rows in SIZES {
        let alone = answers(&grown(rows, "ring: load and drop"), 2);
        assert!(alone[0].starts_with(&format!("loaded {rows} ")));
        assert_eq!(alone[1], format!("dropped {rows}"));
        let beside = answers(&grown(rows, "ring: load and drop beside a held value"), 2);
        assert_eq!(beside[1..], ["loaded 0 0", "dropped 0"]);
    }
}

#[test]
fn all_rows_are_loaded_under_sixteen_constraints() {
    for rows in SIZES {
        let work = grown(rows, "16 constraints: load and drop");
        assert_eq!(work.design.constraints.len(), 16);
        let [load, drop] = &answers(&work, 2)[..] else {
            panic!("two answers");
        };
        assert!(load.starts_with(&format!("loaded {rows} ")), "{load}");
        assert_eq!(drop, &format!("dropped {rows}"));
    }
}

#[test]
fn a_row_goes_and_comes_while_all_are_cached() {
    for rows in SIZES {
        let work = grown(rows, "16 constraints: a row goes, a row comes");
        assert_eq!(work.design.constraints.len(), 16);
        let loaded = format!("loaded {rows} {}", rows - 1);
        let expected = [&loaded, "rows 0 1", "rows 1 0", "rows 0 1"];
        assert_eq!(answers(&work, 3), expected);
    }
}

#[test]
fn hostile_questions_are_what_their_names_say() {
    let line = |name, number: usize| {
        let work = find(work::hostile::questions(), name);
        let asked = Work {
            timed: work.timed[..2].to_vec(),
            ..work.clone()
        };
        let report = reference::report(&asked.script());
        let lines: Vec<&str> = report.lines().skip(1 + work.before.len()).collect();
        lines[number]
            .split_once(' ')
            .expect("a place")
            .1
            .to_string()
    };
    let rows = "falling values: a row goes, a row comes";
    assert_eq!([line(rows, 0), line(rows, 1)], ["rows 0 1", "rows 1 0"]);
    let reason = line("16 constraints: why the last row of a chain is here", 0);
    assert_eq!(
        reason.matches("by constraint 15 from").count(),
        511,
        "{reason}"
    );
    let opener = line("16 constraints: what opens the last row of a chain", 0);
    assert_eq!(opener, "7 2 0");
    let knot = line("two rings: the smallest knot", 0);
    assert_eq!(knot, "knot 0 1 2 3 4 5 6 7");
    let even = line("16 constraints: whether they are even", 0);
    assert_eq!(even, "even");
}

#[test]
fn drops_leave_nothing() {
    for rows in SIZES {
        let answers = answers(&grown(rows, "16 values: loads, then drops"), 32);
        let (loads, drops) = answers.split_at(16);
        assert!(loads.iter().all(|load| load.starts_with("loaded ")));
        let dropped = drops.iter().map(|drop| -> usize {
            let rows = drop.strip_prefix("dropped ").expect("a drop");
            rows.parse().expect("a number of rows")
        });
        let sum = dropped.sum();
        assert_eq!((drops.len(), sum), (16, rows));
    }
}

#[test]
fn queries_and_totals_have_all_lists_or_none() {
    for rows in SIZES {
        let lists = answers(&grown(rows, "819 lists of five: query"), 1);
        assert_eq!(lists.last().map(String::as_str), Some("answer 819"));
        let total = answers(&grown(rows, "819 lists of five: total"), 1);
        assert_eq!(total.last().map(String::as_str), Some("total 819"));
        let total = answers(&grown(rows, "lists of any five rows: total"), 1);
        assert_eq!(total[1], format!("total {}", (rows as u64).pow(5)));
        let dead_ends = answers(&grown(rows, "dead ends: query"), 1);
        let loaded = format!("loaded {rows} 0");
        assert_eq!(dead_ends, [loaded.as_str(), "answer 0"]);
    }
}

#[test]
fn a_crowd_is_loaded_and_kept_whole() {
    for rows in SIZES {
        let alone = answers(&grown(rows, "crowd: load and drop"), 2);
        assert_eq!(
            alone,
            [format!("loaded {rows} 0"), format!("dropped {rows}")]
        );
        let work = grown(rows, "crowd: load and drop beside a held value");
        let loaded = format!("loaded {rows} 0");
        assert_eq!(
            answers(&work, 2),
            [loaded.as_str(), "loaded 0 0", "dropped 0"]
        );
    }
}

#[test]
fn one_bucket_takes_all_values() {
    let values: Vec<u32> = growing::sharing_a_bucket().take(1_100).collect();
    assert_eq!(values[0], 1);
    let bucket = |value: u32| (u64::from(value) * 2_654_435_769 / 8_388_608) % 512;
    assert!(values.iter().all(|&value| bucket(value) == bucket(1)));
    for name in [
        "one bucket: load and drop beside a held value",
        "one bucket: load and drop of an absent value",
    ] {
        let work = find(work::all(), name);
        assert_eq!(work.design.constraints.len(), 16);
        assert_eq!(answers(&work, 2)[1..], ["loaded 0 0", "dropped 0"]);
    }
}

#[test]
fn hostile_probes_and_queries_answer_as_meant() {
    let last = |name: &str| answers(&find(work::all(), name), 1).pop();
    let probes = [
        "16 constraints at a column: probe of an absent value",
        "16 constraints at a column: probe, the value in uncached rows",
    ];
    for probe in probes {
        assert_eq!(last(probe).as_deref(), Some("sent"));
    }
    let query = last("one bucket: query with 4 joins");
    assert_eq!(query.as_deref(), Some("answer 1"));
    for name in [
        "4,032 lists of two: query refused by 11",
        "4,032 lists of two: query refused by 11, its load undone",
    ] {
        let refused = last(name).expect("an answer");
        assert!(refused.starts_with("refused 11 "), "{refused}");
    }
}

#[test]
fn the_clinic_answers_its_queries_and_probes() {
    let clinic = |name, count| answers(&find(work::all(), name), count);
    let queries = clinic("clinic: query with 4 joins", 10);
    let lists = |answer: &String| answer.starts_with("answer ") && answer != "answer 0";
    assert!(queries[10..].iter().all(lists), "{queries:?}");
    let totals = clinic("clinic: total over 4 joins", 10);
    let above_0 = |answer: &String| answer.starts_with("total ") && answer != "total 0";
    assert!(totals[10..].iter().all(above_0), "{totals:?}");
    let fetches = clinic("clinic: query that loads its ward, and drop", 20);
    for both in fetches.chunks(2) {
        assert!(
            lists(&both[0]) && both[1].starts_with("dropped "),
            "{both:?}"
        );
    }
    let probes = clinic("clinic: probe", 200);
    for kind in ["ground 1 ", "ground 2 ", "ground 3 1", "sent"] {
        let answered = probes.iter().any(|answer| answer.starts_with(kind));
        assert!(answered, "no {kind}");
    }
    let held = clinic("clinic: load of a ward held already", 9);
    assert!(held[1..].iter().all(|answer| answer == "held"));
}

#[test]
fn the_full_script_is_full_and_lawful() {
    let full = find(work::all(), "laboratory: a script of 65,536 bytes");
    assert_eq!(full.script().len(), 65_536);
    let answers = answers(&full, full.timed.len());
    assert_eq!(answers.len(), full.timed.len());
    for kind in ["loaded", "held", "dropped", "ground", "sent", "answer"] {
        let answered = answers.iter().any(|answer| answer.starts_with(kind));
        assert!(answered, "no {kind}");
    }
    assert!(!answers.iter().any(|answer| answer.starts_with("refused")));
}

#[test]
fn other_rows_change_no_answer() {
    let without = unreached::works(0);
    for others in [200, 500] {
        for (work, alone) in unreached::works(others).iter().zip(&without) {
            assert_eq!(work.design.rows.len(), unreached::REACHED + others);
            let last = |work| {
                answers(work, 2)
                    .into_iter()
                    .rev()
                    .take(2)
                    .collect::<Vec<_>>()
            };
            assert_eq!(last(work), last(alone), "{}", work.name);
        }
    }
    let load = answers(&without[0], 1);
    assert!(load[0].starts_with(&format!("loaded {} ", unreached::REACHED)));
}

#[test]
fn openings_are_accepted_at_the_largest_counts() {
    for opening in openings(512) {
        let script = Opening::from(&opening.design).script;
        let report = reference::report(&script);
        assert_eq!(report, "design 1 16 8 512\n", "{}", opening.name);
        assert_eq!(opening.design.tables[0].unique, u8::MAX);
    }
}

#[test]
fn all_contestants_do_the_same() {
    let contestants = contestants();
    let everywhere = growing::works(SIZES[0]).into_iter().chain(work::all());
    for work in everywhere.chain(unreached::works(200)) {
        assert_eq!(check(&contestants, &work), Ok(()));
    }
    let small = &growing::works(SIZES[0])[0];
    assert!(measure(&contestants, small).is_ok());
}

/// SQL has no statement for these; the others say the same.
#[test]
fn questions_are_answered_alike() {
    let mut contestants = contestants();
    contestants.retain(|contestant| contestant.name() != "SQLite");
    let works = growing::questions(SIZES[0]);
    for work in &works {
        assert_eq!(check(&contestants, work), Ok(()), "{}", work.name);
    }
    let mut first = works[1].clone();
    first.timed.truncate(1);
    let report = reference::report(&first.script());
    assert_eq!(report.lines().last(), Some("0 0 1 0"));
}

/// No work asks for a report on its design, and SQLite has none. The others have
/// to say the same all the same.
#[test]
fn reports_on_designs_agree() {
    let (mut even, mut uneven) = (0, 0);
    let operations = Operations::from(&[Command::Even][..]);
    for work in work::all() {
        let design = Opening::from(&work.design);
        let contestants = contestants().into_iter();
        let mut answers: Vec<Answer> = contestants
            .filter(|contestant| contestant.name() != "SQLite")
            .map(|contestant| contestant.open(&design).answer(&operations.list[0]))
            .collect();
        answers.dedup();
        match answers[..] {
            [Answer::Even] => even += 1,
            [Answer::Uneven(..)] => uneven += 1,
            _ => panic!("{}: {answers:?}", work.name),
        }
    }
    assert!(even > 0 && uneven > 0);
}

/// Answers everything with "sent".
struct Sender;

impl Contestant for Sender {
    fn name(&self) -> &'static str {
        "sender"
    }

    fn open(&self, _: &Opening) -> Box<dyn OpenDesk> {
        Box::new(Sender)
    }
}

impl OpenDesk for Sender {
    fn answer(&mut self, _: &Operation) -> Answer {
        Answer::Sent
    }

    fn run(&mut self, operations: &Operations) -> usize {
        operations.list.len()
    }
}

#[test]
fn a_contestant_that_does_something_else_is_found() {
    let mut contestants = contestants();
    let first = contestants[0].name();
    contestants.push(Box::new(Sender));
    let work = grown(SIZES[0], "chain: load and drop");
    let expected = format!("chain: load and drop: sender and {first} differ");
    assert_eq!(check(&contestants, &work), Err(expected.clone()));
    assert_eq!(measure(&contestants, &work), Err(expected));
}

/// A contestant that answers as the first does, but does nothing in a run.
struct Idler;

struct Idle(Box<dyn OpenDesk>);

impl Contestant for Idler {
    fn name(&self) -> &'static str {
        "idler"
    }

    fn open(&self, design: &Opening) -> Box<dyn OpenDesk> {
        Box::new(Idle(contestants()[0].open(design)))
    }
}

impl OpenDesk for Idle {
    fn answer(&mut self, operation: &Operation) -> Answer {
        self.0.answer(operation)
    }

    fn run(&mut self, operations: &Operations) -> usize {
        operations.list.len()
    }
}

#[test]
fn a_contestant_that_is_idle_in_a_run_is_found() {
    let work = grown(SIZES[0], "chain: load and drop");
    let found = check(&[Box::new(Idler)], &work);
    let expected = "chain: load and drop: itself after a run and idler differ";
    assert_eq!(found, Err(expected.into()));
}
