//! Runs the proved library and the second program over the same texts.
//!
//! `cargo run --release -p compare [-- [--codes] [--one-in N] [SEED [TEXTS]]]`
//!
//! Merge is run over a third as many triples of texts as check and tidy over
//! texts.
//!
//! A part of the comparison is a test, and so is, for each call, that it gave
//! each of its codes often enough. `--codes` shows how often in each part.
//! `--one-in` runs only one case in N of each part, for tools that make a run
//! slow; how often codes were met is no test then.

#![forbid(unsafe_code)]

use compare::met::{Met, LEAST_OF_EACH_CODE};
use compare::run::{met_by_all, run_all, Cases, Outcome};
use std::process::ExitCode;

const SEED: u64 = 2004;
const TEXTS: usize = 150_000;

struct Wanted {
    cases: Cases,
    codes: bool,
}

fn main() -> ExitCode {
    let Some(wanted) = wanted(std::env::args().skip(1)) else {
        eprintln!("usage: compare [--codes] [--one-in N] [SEED [TEXTS]]");
        return ExitCode::from(2);
    };
    let outcomes = run_all(wanted.cases, |outcome| show(outcome, wanted.codes));
    let seldom = match wanted.cases.one_in {
        1 => show_codes(&met_by_all(&outcomes)).to_vec(),
        _ => Vec::new(),
    };
    let tests = outcomes.len() + seldom.len();
    let failed = outcomes.iter().filter(|part| part.differences > 0).count()
        + seldom.iter().filter(|codes| !codes.is_empty()).count();
    println!("{} passed, {failed} failed", tests - failed);
    ExitCode::from(u8::from(failed > 0))
}

fn wanted(mut arguments: impl Iterator<Item = String>) -> Option<Wanted> {
    let mut cases = Cases {
        seed: SEED,
        texts: TEXTS,
        one_in: 1,
    };
    let mut codes = false;
    let mut numbers = Vec::new();
    while let Some(argument) = arguments.next() {
        match argument.as_str() {
            "--codes" => codes = true,
            "--one-in" => cases.one_in = arguments.next()?.parse().ok().filter(|&n| n > 0)?,
            number => numbers.push(number.parse::<u64>().ok()?),
        }
    }
    if numbers.len() > 2 {
        return None;
    }
    if let Some(&seed) = numbers.first() {
        cases.seed = seed;
    }
    if let Some(&texts) = numbers.get(1) {
        cases.texts = usize::try_from(texts).ok()?;
    }
    Some(Wanted { cases, codes })
}

fn show(outcome: &Outcome, with_codes: bool) {
    println!(
        "compare: {} {} {}, {} differences",
        outcome.name, outcome.count, outcome.named, outcome.differences
    );
    for report in &outcome.reports {
        println!("{report}");
    }
    if with_codes {
        for of_call in outcome.met.of_each_call() {
            if of_call.was_made() {
                println!("  {:5} {}", of_call.call, of_call.listed());
            }
        }
    }
}

/// For each call the codes it gave too seldom.
fn show_codes(met: &Met) -> [Vec<u32>; 3] {
    met.of_each_call().map(|of_call| {
        let call = of_call.call;
        println!("codes of {call}: {}", of_call.listed());
        let seldom = of_call.too_seldom();
        for code in &seldom {
            println!("code {code} of {call} was met fewer than {LEAST_OF_EACH_CODE} times");
        }
        seldom
    })
}

#[cfg(test)]
mod tests {
    use super::*;

    /// Fewer texts than the program runs, from another seed.
    #[test]
    fn no_part_differs() {
        let cases = Cases {
            seed: 1,
            texts: 48_000,
            one_in: 1,
        };
        let outcomes = run_all(cases, |outcome| show(outcome, false));
        assert!(outcomes.iter().all(|part| part.differences == 0));
        let none: [Vec<u32>; 3] = Default::default();
        assert_eq!(show_codes(&met_by_all(&outcomes)), none);
    }

    #[test]
    fn one_case_in_many() {
        let cases = Cases {
            seed: 1,
            texts: 48_000,
            one_in: 1_000,
        };
        let outcomes = run_all(cases, |_| ());
        assert!(outcomes
            .iter()
            .all(|part| part.differences == 0 && part.count > 0));
        let count: usize = outcomes.iter().map(|part| part.count).sum();
        assert!((100..300).contains(&count), "{count}");
    }

    #[test]
    fn arguments() {
        let read = |line: &str| {
            let wanted = wanted(line.split_whitespace().map(str::to_string))?;
            let Cases {
                seed,
                texts,
                one_in,
            } = wanted.cases;
            Some((wanted.codes, one_in, seed, texts))
        };
        assert_eq!(read(""), Some((false, 1, SEED, TEXTS)));
        assert_eq!(read("--one-in 9 7"), Some((false, 9, 7, TEXTS)));
        assert_eq!(read("7 --codes 8"), Some((true, 1, 7, 8)));
        for line in ["--one-in", "--one-in 0", "x", "1 2 3"] {
            assert_eq!(read(line), None, "{line}");
        }
    }
}
