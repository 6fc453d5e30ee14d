//! Runs the proved library and the second program over random and mutated
//! triples of tables, for a given time.
//!
//! `cargo run --release -p fuzz -- [--minutes N] [--seed S]`
//!
//! A seed gives the same triples in the same order everywhere; the time only
//! says where that row ends. The first difference ends the run: its triple is
//! made smaller, shown, and written to `target/fuzz/`.

#![forbid(unsafe_code)]

mod arguments;
mod corpus;
mod counted;
mod features;
mod fresh;
mod judge;
mod mutate;
mod report;
mod run;
mod shrink;
#[cfg(test)]
mod wrong;

use arguments::Arguments;
use compare::calls::Library;
use report::Difference;
use run::{Limit, Run};
use std::path::Path;
use std::process::ExitCode;
use std::time::{Duration, Instant};

const TO_WRITE_TO: &str = concat!(env!("CARGO_MANIFEST_DIR"), "/../../target/fuzz");
const BETWEEN_LINES: Duration = Duration::from_secs(60);

fn main() -> ExitCode {
    let Some((end, seed)) = end_and_seed() else {
        eprintln!("usage: fuzz [--minutes N] [--seed S]");
        return ExitCode::from(2);
    };
    println!("seed {seed}");
    let mut next_line = Instant::now() + BETWEEN_LINES;
    let mut run = Run::new(&Library, seed);
    let difference = run.go(Limit::Until(end), |run| {
        if Instant::now() >= next_line {
            println!("{}", run.so_far());
            next_line += BETWEEN_LINES;
        }
    });
    println!("{}", run.so_far());
    for of_call in run.met.of_each_call() {
        println!("codes of {}: {}", of_call.call, of_call.listed());
    }
    match difference {
        None => {
            println!("0 differences");
            ExitCode::SUCCESS
        }
        Some(difference) => tell(&difference),
    }
}

/// None for words that mean nothing, and for more time than a clock can tell.
fn end_and_seed() -> Option<(Instant, u64)> {
    let Arguments { time, seed } = Arguments::read(std::env::args().skip(1))?;
    Some((Instant::now().checked_add(time)?, seed))
}

fn tell(difference: &Difference) -> ExitCode {
    let shown = difference.shown(&Library);
    println!("1 difference\n{shown}");
    match difference.write(Path::new(TO_WRITE_TO), &shown) {
        Ok(path) => println!("written to {}", path.display()),
        Err(error) => println!("not written to a file: {error}"),
    }
    ExitCode::FAILURE
}
