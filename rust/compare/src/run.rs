//! Runs the parts and counts what they met.

use crate::calls::{Calls, Library};
use crate::met::{Given, Met};
use crate::parts::{Part, Source, MERGE_PARTS, PARTS};
use crate::random::Random;
use crate::tidying::Rooms;
use std::thread;

/// What both programs are run over.
pub trait Judged: Clone + Sync {
    /// What several of them are called.
    const NAMED: &'static str;

    /// The codes that the calls and the second program give, or what is
    /// different.
    fn judge(&self, calls: &dyn Calls, rooms: Rooms, random: &mut Random) -> Result<Given, String>;
}

/// However few texts are wanted, no part may pass without any.
const FEWEST_DRAWN: usize = 1_000;

const REPORTS_SHOWN: usize = 3;

#[derive(Clone, Debug, Default)]
pub struct Outcome {
    pub name: &'static str,
    /// What it was run over, and over how many.
    pub named: &'static str,
    pub count: usize,
    pub differences: usize,
    pub met: Met,
    /// The first few differences.
    pub reports: Vec<String>,
}

impl Outcome {
    fn count(&mut self, index: usize, judged: Result<Given, String>) {
        self.count += 1;
        match judged {
            Ok(given) => self.met.count(given),
            Err(report) => {
                self.differences += 1;
                if self.reports.len() < REPORTS_SHOWN {
                    self.reports.push(format!("{index}: {report}"));
                }
            }
        }
    }

    fn add(&mut self, other: Outcome) {
        self.count += other.count;
        self.differences += other.differences;
        self.met.add(other.met);
        self.reports.extend(other.reports);
        self.reports.truncate(REPORTS_SHOWN);
    }
}

/// For so many texts there is one triple to merge.
const TEXTS_A_TRIPLE: usize = 3;

/// Which cases are run.
#[derive(Clone, Copy, Debug)]
pub struct Cases {
    pub seed: u64,
    /// About so many texts in all.
    pub texts: usize,
    /// Of these, and of the triples, only one in so many.
    pub one_in: usize,
}

/// Runs each part, and shows each outcome as soon as it is known.
pub fn run_all(cases: Cases, show: impl Fn(&Outcome)) -> Vec<Outcome> {
    let triples = cases.texts / TEXTS_A_TRIPLE;
    let mut outcomes = run_parts(&PARTS, 0, cases, cases.texts, &show);
    let merges = run_parts(&MERGE_PARTS, PARTS.len(), cases, triples, &show);
    outcomes.extend(merges);
    outcomes
}

/// The place is that of the first of the parts among all.
fn run_parts<C: Judged>(
    parts: &[Part<C>],
    place: usize,
    cases: Cases,
    wanted: usize,
    show: &impl Fn(&Outcome),
) -> Vec<Outcome> {
    let lists: Vec<Vec<C>> = parts.iter().map(list).collect();
    let listed: usize = parts.iter().zip(&lists).map(counted).sum();
    let drawn_count = wanted.saturating_sub(listed).max(FEWEST_DRAWN);
    let mut outcomes = Vec::new();
    for ((place, part), list) in (place..).zip(parts).zip(&lists) {
        let run = |count, make: Make<C>| run_part(part, place, cases, count, make);
        let outcome = match part.source {
            Source::Listed(_) | Source::Every(_) => {
                run(list.len(), &|index, _| list[index].clone())
            }
            Source::Drawn { share, draw } => {
                run(drawn_count * share / 100, &|_, random| draw(random))
            }
        };
        show(&outcome);
        outcomes.push(outcome);
    }
    outcomes
}

/// The cases that a part has always.
fn list<C>(part: &Part<C>) -> Vec<C> {
    match part.source {
        Source::Listed(list) | Source::Every(list) => list(),
        Source::Drawn { .. } => Vec::new(),
    }
}

/// How many of those wanted they are.
fn counted<C>((part, list): (&Part<C>, &Vec<C>)) -> usize {
    match part.source {
        Source::Listed(_) => list.len(),
        Source::Every(_) | Source::Drawn { .. } => 0,
    }
}

/// Makes a case from its place in the part and a random generator.
type Make<'a, C> = &'a (dyn Fn(usize, &mut Random) -> C + Sync);

/// Each case has a random generator of its own, so the threads' number changes
/// nothing.
fn run_part<C: Judged>(
    part: &Part<C>,
    place: usize,
    cases: Cases,
    count: usize,
    make: Make<C>,
) -> Outcome {
    let threads = thread::available_parallelism().map_or(1, usize::from);
    let run_every = |first: usize| {
        let mut outcome = Outcome::default();
        for index in (first.saturating_mul(cases.one_in)..count)
            .step_by(threads.saturating_mul(cases.one_in))
        {
            let mut random = Random::for_text(cases.seed, place, index);
            let case = make(index, &mut random);
            outcome.count(index, case.judge(&Library, part.rooms, &mut random));
        }
        outcome
    };
    let mut whole = Outcome {
        name: part.name,
        named: C::NAMED,
        ..Outcome::default()
    };
    thread::scope(|scope| {
        let running: Vec<_> = (0..threads)
            .map(|first| scope.spawn(move || run_every(first)))
            .collect();
        for thread in running {
            whole.add(thread.join().expect("a program panicked"));
        }
    });
    whole
}

/// What all the parts met together.
pub fn met_by_all(outcomes: &[Outcome]) -> Met {
    let mut sum = Met::default();
    for outcome in outcomes {
        sum.add(outcome.met);
    }
    sum
}
