//! Only one desk has edited, or neither, or both alike: the merged table is the
//! edited one.

use super::edited::{draw_forest, draw_old, draw_spare};
use crate::merging::edits::Desk;
use crate::merging::forest::Forest;
use crate::merging::Triple;
use crate::random::Random;

pub fn draw(random: &mut Random) -> Triple {
    let old = draw_old(random);
    let edited = match random.below(4) {
        0 => unlike(&old, random),
        _ => like(&old, random),
    };
    let desks = match random.below(4) {
        0 => [&edited, &edited, &edited],
        1 => [&old, &edited, &edited],
        2 => [&old, &edited, &old],
        _ => [&old, &old, &edited],
    };
    let texts = desks.map(|forest| forest.any_text(random));
    Triple::merged(texts, edited.written(), edited.ledger(desks))
}

/// Some edits apart.
fn like(old: &Forest, random: &mut Random) -> Forest {
    let spare = draw_spare(old, 5, random);
    let mut edited = old.clone();
    for _ in 0..random.between(0, 8) {
        let desk = Desk {
            forest: &edited,
            spare: &spare,
        };
        desk.draw_edit(random).make(&mut edited);
    }
    edited
}

/// Another tree, though its numbers may be the same and some contents too.
fn unlike(old: &Forest, random: &mut Random) -> Forest {
    let mut edited = draw_forest(old.contents.len(), random);
    for (number, content) in &old.contents {
        if edited.has(*number) && random.one_in(2) {
            edited.change(*number, content);
        }
    }
    edited
}
