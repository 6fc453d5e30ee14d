//! Triples that were the first with their features. Mutations begin with them.

use crate::features::{Features, Texts};
use compare::random::Random;
use std::collections::HashMap;

#[derive(Default)]
pub struct Corpus {
    /// Those whose tables can all be read.
    readable: Kept,
    refused: Kept,
}

#[derive(Default)]
struct Kept {
    triples: Vec<Texts>,
    place_of: HashMap<Features, usize>,
}

impl Corpus {
    /// A triple with new features is kept, and a shorter one in the place of a
    /// longer one with the same.
    pub fn meet(&mut self, texts: &Texts, features: Features) {
        let kept = match features.are_of_a_refused_table() {
            false => &mut self.readable,
            true => &mut self.refused,
        };
        kept.meet(texts, features);
    }

    pub fn len(&self) -> usize {
        self.readable.triples.len() + self.refused.triples.len()
    }

    /// Mostly one whose tables can be read: what is made from a refused one is
    /// mostly refused again.
    pub fn pick(&self, random: &mut Random) -> Option<&Texts> {
        let kept = match random.one_in(8) || self.readable.triples.is_empty() {
            false => &self.readable.triples,
            true => &self.refused.triples,
        };
        match kept.len() {
            0 => None,
            count => Some(&kept[random.below(count)]),
        }
    }
}

impl Kept {
    fn meet(&mut self, texts: &Texts, features: Features) {
        match self.place_of.get(&features) {
            None => {
                self.place_of.insert(features, self.triples.len());
                self.triples.push(texts.clone());
            }
            Some(&place) if bytes(texts) < bytes(&self.triples[place]) => {
                self.triples[place] = texts.clone();
            }
            Some(_) => (),
        }
    }
}

fn bytes(texts: &Texts) -> usize {
    texts.iter().map(Vec::len).sum()
}

#[cfg(test)]
mod tests {
    use super::*;

    fn met(corpus: &mut Corpus, texts: [&str; 3]) {
        let texts = texts.map(|text| text.as_bytes().to_vec());
        let result = second::merged_bytes(&texts[0], &[&texts[1], &texts[2]]);
        corpus.meet(&texts, Features::of(&texts, &result));
    }

    #[test]
    fn the_shortest_of_each_sort_is_kept() {
        let mut corpus = Corpus::default();
        let mut random = Random::new(1);
        assert_eq!(corpus.pick(&mut random), None);
        met(&mut corpus, ["", "1\t0\tlong\n", ""]);
        met(&mut corpus, ["", "1\t0\tx\n", ""]);
        met(&mut corpus, ["", "1\t0\tlonger\n", ""]);
        assert_eq!(corpus.len(), 1);
        assert_eq!(corpus.readable.triples.len(), 1);
        assert_eq!(bytes(&corpus.readable.triples[0]), 6);
        met(&mut corpus, ["", "", "1\t0\tx\n"]);
        assert_eq!(corpus.len(), 2);
    }

    #[test]
    fn refused_tables_are_picked_seldom() {
        let mut corpus = Corpus::default();
        met(&mut corpus, ["", "1", ""]);
        met(&mut corpus, ["", "", ""]);
        let mut random = Random::new(1);
        let mut picked = |bytes_of: usize| {
            let picked = (0..800).filter_map(|_| corpus.pick(&mut random));
            picked.filter(|texts| bytes(texts) == bytes_of).count()
        };
        assert!((1..200).contains(&picked(1)));
        assert!((600..800).contains(&picked(0)));
    }
}
