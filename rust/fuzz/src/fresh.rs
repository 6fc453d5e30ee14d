//! New triples, drawn as the comparison draws its cases.

use compare::case::Case;
use compare::merging::Triple;
use compare::parts::{Part, Source, MERGE_PARTS, PARTS};
use compare::random::Random;

pub struct Fresh {
    merges: Drawn<Triple>,
    texts: Drawn<Case>,
}

/// Each way to draw, once for each part of a hundred that is its share.
type Drawn<C> = Vec<fn(&mut Random) -> C>;

impl Fresh {
    pub fn new() -> Fresh {
        Fresh {
            merges: drawn(&MERGE_PARTS),
            texts: drawn(&PARTS),
        }
    }

    /// Random trees with random edits of both desks, good and damaged; now and
    /// then texts that have nothing to do with each other.
    pub fn draw(&self, random: &mut Random) -> Triple {
        if random.one_in(6) {
            return self.unlike(random);
        }
        random.pick(&self.merges)(random)
    }

    fn unlike(&self, random: &mut Random) -> Triple {
        Triple::unknown([(); 3].map(|()| random.pick(&self.texts)(random).text))
    }
}

fn drawn<C>(parts: &[Part<C>]) -> Drawn<C> {
    let mut ways = Vec::new();
    for part in parts {
        if let Source::Drawn { share, draw } = part.source {
            ways.extend(vec![draw; share]);
        }
    }
    ways
}
