//! `bench [DESK]`: prints the processor time of the desk's work in each
//! implementation, and how that grows. If DESK names the desk program, by the
//! argument or the environment variable, whole scripts are timed on it too.

use std::env;
use std::path::PathBuf;
use std::process::ExitCode;

use bench::contestant::{Contestant, Opening};
use bench::measure::{check, measure, measure_opening, Timing};
use bench::process::{contenders, measure_processes};
use bench::table::{ratio, time, Table};
use bench::work::opening::openings;
use bench::work::{self, Work};
use bench::{contestants, work::growing, work::unreached};

const SIZES: [usize; 4] = [64, 128, 256, 512];

/// Numbers of rows that aren't reached.
const OTHERS: [usize; 3] = [0, 200, 500];

type Contestants = [Box<dyn Contestant>];

fn main() -> ExitCode {
    match run() {
        Ok(()) => ExitCode::SUCCESS,
        Err(message) => {
            eprintln!("bench: {message}");
            ExitCode::FAILURE
        }
    }
}

fn run() -> Result<(), String> {
    let contestants = contestants();
    println!("Processor time.\n\nOperations, on the average of a long run\n");
    println!("{}", side_by_side(&contestants)?);
    println!("Operations from 64 to 512 rows\n");
    println!("{}", growth(&contestants)?);
    println!("Questions beside one load, from 64 to 512 rows\n");
    println!("{}", questions()?);
    println!("Operations beside rows that they don't reach\n");
    println!("{}", beside_others(&contestants)?);
    println!("Opening a design of 8 unique columns, 16 constraints and 8 fillings\n");
    println!("{}", opening(&contestants));
    let desk = env::args_os().nth(1).or(env::var_os("DESK"));
    println!("Whole scripts, each program as a process of its own\n");
    println!("{}", whole_scripts(desk.map(PathBuf::from))?);
    Ok(())
}

fn side_by_side(contestants: &Contestants) -> Result<String, String> {
    let names: Vec<&str> = contestants.iter().map(|c| c.name()).collect();
    let ratios = Ratios::of(&names);
    let mut table = Table::default();
    let head = ["".into(), "operations".into()];
    let names = names.iter().map(|name| name.to_string());
    table.add(
        head.into_iter()
            .chain(names)
            .chain(ratios.heads())
            .collect(),
    );
    for work in work::all() {
        check(contestants, &work)?;
        let timings = measure(contestants, &work)?;
        let head = [work.name.into(), work.timed.len().to_string()];
        let times = timings.iter().map(|&timing| time(timing));
        table.add(
            head.into_iter()
                .chain(times)
                .chain(ratios.cells(&timings))
                .collect(),
        );
    }
    Ok(table.text())
}

/// The ratios that are of interest among contestants: of the first to `limit`,
/// and of every other to the first.
struct Ratios {
    /// Two names with their numbers: how many times the second's time the
    /// first's is.
    pairs: Vec<[(String, usize); 2]>,
}

impl Ratios {
    fn of(names: &[&str]) -> Ratios {
        let numbered = |number: usize| (names[number].to_string(), number);
        let pair = |number: usize| match names[number] {
            "limit" => [numbered(0), numbered(number)],
            _ => [numbered(number), numbered(0)],
        };
        Ratios {
            pairs: (1..names.len()).map(pair).collect(),
        }
    }

    fn heads(&self) -> impl Iterator<Item = String> + '_ {
        let pairs = self.pairs.iter();
        pairs.map(|[(one, _), (other, _)]| format!("{one} / {other}"))
    }

    fn cells<'a>(&'a self, timings: &'a [Timing]) -> impl Iterator<Item = String> + 'a {
        let pairs = self.pairs.iter();
        pairs.map(|&[(_, one), (_, other)]| ratio(timings[one], timings[other]))
    }
}

/// The times of each contestant at several sizes, and the ratio of the last to
/// the first.
fn at_sizes(table: &mut Table, name: &str, contestants: &Contestants, timings: &[Vec<Timing>]) {
    for (place, contestant) in contestants.iter().enumerate() {
        let name = format!("{name}, {}", contestant.name());
        let of_contestant: Vec<Timing> = timings.iter().map(|timings| timings[place]).collect();
        let times = of_contestant.iter().map(|&timing| time(timing)).collect();
        let ends = (of_contestant.last(), of_contestant.first());
        let ratio = ends.0.zip(ends.1).map(|(&last, &first)| ratio(last, first));
        table.add([vec![name], times, ratio.into_iter().collect()].concat());
    }
}

fn head(sizes: &[usize]) -> Vec<String> {
    let sizes = sizes.iter().map(|rows| format!("{rows} rows"));
    let (first, last) = ([String::new()], ["last / first".into()]);
    first.into_iter().chain(sizes).chain(last).collect()
}

/// Works made for several sizes, measured at each.
fn works_at_sizes(
    contestants: &Contestants,
    sizes: &[usize],
    works: fn(usize) -> Vec<Work>,
) -> Result<String, String> {
    let mut table = Table::default();
    table.add(head(sizes));
    let works: Vec<Vec<Work>> = sizes.iter().map(|&size| works(size)).collect();
    for (number, work) in works[0].iter().enumerate() {
        let timings = works
            .iter()
            .map(|works| measure(contestants, &works[number]));
        let timings = timings.collect::<Result<Vec<_>, String>>()?;
        at_sizes(&mut table, work.name, contestants, &timings);
    }
    Ok(table.text())
}

fn growth(contestants: &Contestants) -> Result<String, String> {
    works_at_sizes(contestants, &SIZES, growing::works)
}

/// Questions that SQL has no statement for: without SQLite.
fn questions() -> Result<String, String> {
    let mut contestants = contestants();
    contestants.retain(|contestant| contestant.name() != "SQLite");
    works_at_sizes(&contestants, &SIZES, growing::questions)
}

fn beside_others(contestants: &Contestants) -> Result<String, String> {
    works_at_sizes(contestants, &OTHERS, unreached::works)
}

fn opening(contestants: &Contestants) -> String {
    let mut table = Table::default();
    table.add(head(&SIZES));
    let sizes = SIZES.map(openings);
    for (number, opening) in sizes[0].iter().enumerate() {
        let timings = sizes.each_ref().map(|openings| {
            let design = Opening::from(&openings[number].design);
            measure_opening(contestants, &design)
        });
        at_sizes(&mut table, opening.name, contestants, &timings);
    }
    table.text()
}

fn whole_scripts(desk: Option<PathBuf>) -> Result<String, String> {
    let contenders = contenders(desk).map_err(|error| error.to_string())?;
    let names: Vec<&str> = contenders.iter().map(|contender| contender.name).collect();
    let ratios = Ratios::of(&names);
    let mut table = Table::default();
    let names = names.iter().map(|name| name.to_string());
    let head = [String::new()].into_iter().chain(names);
    table.add(head.chain(ratios.heads()).collect());
    let empty = ("an empty script", Vec::new());
    let works = work::all().into_iter();
    let scripts = works.map(|work| (work.name, work.script()));
    for (name, script) in [empty].into_iter().chain(scripts) {
        let timings = measure_processes(&contenders, &script)?;
        let times = timings.iter().map(|&timing| time(timing));
        let cells = [name.to_string()].into_iter().chain(times);
        table.add(cells.chain(ratios.cells(&timings)).collect());
    }
    Ok(table.text())
}
