//! What the program was asked for.

use std::time::{Duration, SystemTime, UNIX_EPOCH};

const MINUTES: f64 = 10.0;
const SECONDS_A_MINUTE: f64 = 60.0;

#[derive(Debug, PartialEq)]
pub struct Arguments {
    pub time: Duration,
    pub seed: u64,
}

impl Arguments {
    /// None if they make no sense.
    pub fn read(mut arguments: impl Iterator<Item = String>) -> Option<Arguments> {
        let mut minutes = MINUTES;
        let mut seed = None;
        while let Some(name) = arguments.next() {
            let value = arguments.next()?;
            match name.as_str() {
                "--minutes" => minutes = value.parse().ok()?,
                "--seed" => seed = Some(value.parse().ok()?),
                _ => return None,
            }
        }
        Some(Arguments {
            time: Duration::try_from_secs_f64(minutes * SECONDS_A_MINUTE).ok()?,
            seed: seed.unwrap_or_else(seed_of_the_clock),
        })
    }
}

fn seed_of_the_clock() -> u64 {
    let now = SystemTime::now().duration_since(UNIX_EPOCH);
    now.map_or(0, |now| {
        now.as_secs() * 1_000 + u64::from(now.subsec_millis())
    })
}

#[cfg(test)]
mod tests {
    use super::*;

    fn read(line: &str) -> Option<Arguments> {
        Arguments::read(line.split_whitespace().map(str::to_string))
    }

    #[test]
    fn time_and_seed() {
        let wanted = |seconds, seed| {
            let time = Duration::from_secs(seconds);
            Some(Arguments { time, seed })
        };
        assert_eq!(read("--minutes 3 --seed 7"), wanted(180, 7));
        assert_eq!(read("--seed 8 --minutes 0.5"), wanted(30, 8));
        assert_eq!(read("--seed 9"), wanted(600, 9));
        assert!(read("").is_some());
    }

    #[test]
    fn no_sense() {
        for line in [
            "--seed",
            "--seed x",
            "--minutes -1",
            "--minutes inf",
            "7",
            "--hours 1",
        ] {
            assert_eq!(read(line), None, "{line}");
        }
    }
}
