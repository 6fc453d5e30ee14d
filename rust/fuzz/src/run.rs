//! The rounds: each draws a triple, judges it and keeps it if it is new.

use crate::corpus::Corpus;
use crate::counted::Counted;
use crate::features::{Features, Texts};
use crate::fresh::Fresh;
use crate::judge::judge;
use crate::mutate::mutated;
use crate::report::Difference;
use crate::shrink::shrunk;
use compare::calls::Calls;
use compare::merging::Triple;
use compare::met::Met;
use compare::random::Random;
use std::time::Instant;

pub enum Limit {
    Until(Instant),
    #[cfg(test)]
    Rounds(u64),
}

impl Limit {
    fn is_met(&self, rounds: u64) -> bool {
        match self {
            Limit::Until(end) => rounds % ROUNDS_A_LOOK == 0 && Instant::now() >= *end,
            #[cfg(test)]
            Limit::Rounds(most) => rounds >= *most,
        }
    }
}

/// The clock is looked at once in so many rounds.
const ROUNDS_A_LOOK: u64 = 16;

pub struct Run<'a> {
    seed: u64,
    calls: Counted<'a>,
    fresh: Fresh,
    corpus: Corpus,
    rounds: u64,
    pub met: Met,
}

/// Of the generators of a round one draws the triple, and one judges it.
const DRAWS: usize = 0;
const JUDGES: usize = 1;

/// How often a smaller triple is judged until it shows no difference.
const TRIES: usize = 4;

impl<'a> Run<'a> {
    pub fn new(calls: &'a dyn Calls, seed: u64) -> Run<'a> {
        Run {
            seed,
            calls: Counted::new(calls),
            fresh: Fresh::new(),
            corpus: Corpus::default(),
            rounds: 0,
            met: Met::default(),
        }
    }

    /// Goes on until the limit or the first difference, which is made smaller.
    pub fn go(&mut self, limit: Limit, mut after_each: impl FnMut(&Run)) -> Option<Difference> {
        while !limit.is_met(self.rounds) {
            let difference = self.round();
            self.rounds += 1;
            if difference.is_some() {
                return difference;
            }
            after_each(self);
        }
        None
    }

    fn round(&mut self) -> Option<Difference> {
        let triple = self.draw(&mut self.generator(DRAWS));
        match judge(&self.calls, &triple, &mut self.generator(JUDGES)) {
            Ok(told) => {
                for given in told.given {
                    self.met.count(given);
                }
                let features = Features::of(&triple.texts, &told.result);
                self.corpus.meet(&triple.texts, features);
                None
            }
            Err(said) => Some(self.difference(triple, said)),
        }
    }

    /// One in four is new, the others are made from a kept one.
    fn draw(&self, random: &mut Random) -> Triple {
        match self.corpus.pick(random) {
            Some(kept) if !random.one_in(4) => Triple::unknown(mutated(kept, &self.corpus, random)),
            _ => self.fresh.draw(random),
        }
    }

    fn generator(&self, purpose: usize) -> Random {
        Random::for_text(self.seed, purpose, self.rounds as usize)
    }

    fn difference(&self, triple: Triple, said: String) -> Difference {
        // Other texts take other rooms from a generator, so there are several.
        let judged = |texts: &Texts| {
            let triple = Triple::unknown(texts.clone());
            let mut generators = (JUDGES..JUDGES + TRIES).map(|purpose| self.generator(purpose));
            generators.find_map(|mut random| judge(&self.calls, &triple, &mut random).err())
        };
        let (texts, said) = shrunk(triple.texts, said, &judged);
        Difference {
            seed: self.seed,
            round: self.rounds,
            texts,
            said,
        }
    }

    pub fn so_far(&self) -> String {
        format!(
            "{} triples, {} calls compared, {} triples kept to start from",
            self.rounds,
            self.calls.made(),
            self.corpus.len()
        )
    }
}
