//! Medians of many runs, the contenders taking turns so that a slow moment of
//! the machine falls on all alike.

use std::time::{Duration, Instant};

const SAMPLES: usize = 201;

/// Long enough beside the clock's own step.
const SAMPLE_TIME: Duration = Duration::from_micros(100);

pub type Call<'a> = &'a dyn Fn();

/// The median time of one call of each, in nanoseconds.
pub fn medians<const N: usize>(calls: [Call; N]) -> [f64; N] {
    let batches = calls.map(batch);
    let mut samples = [(); N].map(|()| Vec::with_capacity(SAMPLES));
    for _ in 0..SAMPLES {
        for contender in 0..N {
            let taken = time(calls[contender], batches[contender]);
            samples[contender].push(taken.as_nanos() as f64 / batches[contender] as f64);
        }
    }
    samples.map(median)
}

/// How many calls make up a sample.
fn batch(call: Call) -> usize {
    let mut calls = 1;
    while time(call, calls) < SAMPLE_TIME {
        calls *= 2;
    }
    calls
}

fn time(call: Call, calls: usize) -> Duration {
    let start = Instant::now();
    for _ in 0..calls {
        call();
    }
    start.elapsed()
}

fn median(mut samples: Vec<f64>) -> f64 {
    samples.sort_by(f64::total_cmp);
    samples[samples.len() / 2]
}
