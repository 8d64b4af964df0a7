//! Takes processor times, one run of each contestant after the other. What else
//! the machine does can still cost a run its caches, so the least time of all
//! runs counts.

use std::cell::RefCell;
use std::ops::Range;
use std::time::{Duration, Instant};

use crate::clock::thread_time;
use crate::contestant::{Answer, Contestant, OpenDesk, Opening, Operations};
use crate::work::Work;

/// The longest processor time for one run; a contestant that can't be stopped
/// has no limit.
pub const TIME_LIMIT: Duration = Duration::from_secs(2);

const MOST_RUNS: usize = 51;

/// No run of a contestant begins after it has had so much time for one work, by
/// the wall clock.
const BUDGET: Duration = Duration::from_millis(500);

/// What was measured.
#[derive(Clone, Copy, Debug, PartialEq)]
pub enum Timing {
    /// The least time of all runs, in seconds.
    Least(f64),
    /// Not even one operation was done within [`TIME_LIMIT`].
    OutOfTime,
}

/// A run, which gives its time in seconds unless it passed the limit.
pub type Run<'a> = Box<dyn FnMut() -> Option<f64> + 'a>;

/// Times an operation of a work, on the average of those on the clock. Of a
/// contestant that runs out of time, those that it has done count. Fails if two
/// that have done all of them answer differently afterwards.
pub fn measure(contestants: &[Box<dyn Contestant>], work: &Work) -> Result<Vec<Timing>, String> {
    let prepared = &Prepared::of(work);
    let afterwards = RefCell::new(Agreement::new(work.name));
    let runs = contestants.iter().map(|contestant| -> Run<'_> {
        Box::new(|| {
            let mut desk = prepared.open(contestant.as_ref());
            let start = thread_time();
            let done = desk.run(&prepared.timed);
            let time = thread_time() - start;
            if done == work.timed.len() {
                let answers = answers(desk.as_mut(), &prepared.timed, 0..AFTERWARDS);
                afterwards.borrow_mut().add(contestant.name(), answers);
            }
            (done > 0).then(|| time.as_secs_f64() / done as f64)
        })
    });
    let timings = measure_runs(runs.collect());
    afterwards.into_inner().result().map(|()| timings)
}

/// Times the opening of a design.
pub fn measure_opening(contestants: &[Box<dyn Contestant>], design: &Opening) -> Vec<Timing> {
    let runs = contestants.iter().map(|contestant| -> Run<'_> {
        Box::new(|| {
            let start = thread_time();
            let desk = contestant.open(design);
            let time = thread_time() - start;
            drop(desk);
            Some(time.as_secs_f64())
        })
    });
    measure_runs(runs.collect())
}

/// Times runs in turn.
pub fn measure_runs(mut runs: Vec<Run<'_>>) -> Vec<Timing> {
    let mut timings = vec![Timing::Least(f64::INFINITY); runs.len()];
    let mut spent = vec![Duration::ZERO; runs.len()];
    for _ in 0..MOST_RUNS {
        for ((run, timing), spent) in runs.iter_mut().zip(&mut timings).zip(&mut spent) {
            let Timing::Least(least) = *timing else {
                continue;
            };
            if *spent < BUDGET {
                let start = Instant::now();
                *timing = run().map_or(Timing::OutOfTime, |time| Timing::Least(time.min(least)));
                *spent += start.elapsed();
            }
        }
    }
    timings
}

/// Sees to it that all contestants answer the same one by one, as far as they
/// come in time; and that each answers the same after a run.
pub fn check(contestants: &[Box<dyn Contestant>], work: &Work) -> Result<(), String> {
    let prepared = Prepared::of(work);
    let mut agreement = Agreement::new(work.name);
    let mut after_runs = CUTS.map(|_| Agreement::new(work.name));
    for contestant in contestants {
        let mut desk = prepared.open(contestant.as_ref());
        let one_by_one = answers(desk.as_mut(), &prepared.timed, 0..CHECKED);
        for (cut, agreement) in CUTS.into_iter().zip(&mut after_runs) {
            let Some(part) = work.timed.get(..cut) else {
                continue;
            };
            let mut desk = prepared.open(contestant.as_ref());
            if desk.run(&Operations::from(part)) == cut {
                let expected = one_by_one.get(cut..).unwrap_or_default();
                let rest = answers(desk.as_mut(), &prepared.timed, cut..CHECKED);
                agreement.add(contestant.name(), expected.to_vec());
                agreement.add("itself after a run", rest);
            }
        }
        agreement.add(contestant.name(), one_by_one);
    }
    let mut all = [agreement].into_iter().chain(after_runs);
    all.try_for_each(Agreement::result)
}

/// How many operations are answered one by one in a check.
const CHECKED: usize = 512;

/// How many of them are done in a run before, in two other checks. Where loads
/// and drops take turns, a drop comes next.
const CUTS: [usize; 2] = [1, 129];

/// How many operations are answered after a work has been timed.
const AFTERWARDS: usize = 16;

/// The answers to some of the operations, as far as they come in time.
fn answers(desk: &mut dyn OpenDesk, operations: &Operations, range: Range<usize>) -> Vec<Answer> {
    let end = range.end.min(operations.list.len());
    let list = operations.list.get(range.start..end).unwrap_or_default();
    let start = thread_time();
    let mut answers = Vec::new();
    for operation in list {
        let answer = desk.answer(operation);
        if answer == Answer::OutOfTime || thread_time() - start > TIME_LIMIT / 8 {
            break;
        }
        answers.push(answer);
    }
    answers
}

/// Whether contestants have answered the same, as far as they have answered.
struct Agreement {
    work: &'static str,
    longest: Option<(&'static str, Vec<Answer>)>,
    difference: Option<String>,
}

impl Agreement {
    fn new(work: &'static str) -> Agreement {
        Agreement {
            work,
            longest: None,
            difference: None,
        }
    }

    fn add(&mut self, name: &'static str, answers: Vec<Answer>) {
        let Some((other, longest)) = &self.longest else {
            self.longest = Some((name, answers));
            return;
        };
        if longest.iter().zip(&answers).any(|(one, two)| one != two) {
            let difference = format!("{}: {name} and {other} differ", self.work);
            self.difference.get_or_insert(difference);
        } else if longest.len() < answers.len() {
            self.longest = Some((name, answers));
        }
    }

    fn result(self) -> Result<(), String> {
        self.difference.map_or(Ok(()), Err)
    }
}

/// A work in the forms that contestants take it in.
struct Prepared {
    design: Opening,
    before: Operations,
    timed: Operations,
}

impl Prepared {
    fn of(work: &Work) -> Prepared {
        Prepared {
            design: Opening::from(&work.design),
            before: Operations::from(&work.before[..]),
            timed: Operations::from(&work.timed[..]),
        }
    }

    /// A desk right before the clock starts.
    fn open(&self, contestant: &dyn Contestant) -> Box<dyn OpenDesk> {
        let mut desk = contestant.open(&self.design);
        desk.prepare(&self.before);
        desk.prepare(&self.timed);
        for operation in &self.before.list {
            desk.answer(operation);
        }
        desk
    }
}

#[cfg(test)]
mod tests {
    use super::*;

    #[test]
    fn the_least_time_counts() {
        let mut times = [9.0, 1.0, 5.0].into_iter().cycle();
        let run: Run = Box::new(move || times.next());
        assert_eq!(measure_runs(vec![run]), [Timing::Least(1.0)]);
    }

    #[test]
    fn one_run_out_of_time_is_enough() {
        let mut times = [9.0, 1.0].into_iter();
        let limited: Run = Box::new(move || times.next());
        let other: Run = Box::new(|| Some(0.0));
        let expected = [Timing::OutOfTime, Timing::Least(0.0)];
        assert_eq!(measure_runs(vec![limited, other]), expected);
    }

    #[test]
    fn only_what_was_answered_has_to_agree() {
        let mut agreement = Agreement::new("work");
        agreement.add("one", vec![Answer::Sent]);
        agreement.add("two", vec![Answer::Sent, Answer::Held]);
        agreement.add("three", vec![]);
        assert_eq!(agreement.difference, None);
        agreement.add("four", vec![Answer::Sent, Answer::Sent]);
        let expected = "work: four and two differ".to_string();
        assert_eq!(agreement.result(), Err(expected));
    }
}
