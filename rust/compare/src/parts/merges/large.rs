//! Triples of large tables.

use super::disjoint::{draw_in, known};
use super::edited::draw_edited;
use crate::merging::forest::Forest;
use crate::merging::Triple;
use crate::random::Random;
use crate::tables::{draw_content, MOST_BYTES, MOST_LINES};
use crate::trees::{Tree, GROWTHS};

pub fn draw(random: &mut Random) -> Triple {
    let count = match random.one_in(2) {
        true => MOST_LINES - random.between(0, 6),
        false => random.between(300, MOST_LINES),
    };
    let mut tree = Tree::grow(random.pick(&GROWTHS), count, random);
    match random.below(4) {
        0 => draw_edited(&Forest::of(&tree), 1, random),
        1 => {
            let edits = random.between(1, 40);
            draw_in(&Forest::of(&tree), edits, random)
        }
        2 => {
            tree.fill(random);
            draw_edited(&Forest::of(&tree), 0, random)
        }
        _ => {
            tree.fill(random);
            draw_lengthened(&Forest::of(&tree), random)
        }
    }
}

/// Each desk gives some contents other lengths, and the merged table has about
/// as many bytes as it may.
fn draw_lengthened(full: &Forest, random: &mut Random) -> Triple {
    let mut old = full.clone();
    let mut numbers = full.records();
    random.shuffle(&mut numbers);
    // Old is shorter than the merged table by what both desks add.
    let changed = numbers.split_at(random.between(2, 60));
    for number in changed.0 {
        let length = random.between(1, full.contents[number].len());
        old.change(*number, &draw_content(length, random));
    }
    let by_first = &changed.0[..changed.0.len() / 2];
    let by_second = &changed.0[changed.0.len() / 2..];
    let mut merged = full.clone();
    // One byte more in one of them, and none else.
    let over = by_first
        .iter()
        .find(|&number| full.contents[number].len() < 120);
    if let (Some(number), true) = (over, random.one_in(2)) {
        let length = full.contents[number].len() + 1;
        merged.change(*number, &draw_content(length, random));
        debug_assert_eq!(merged.written().len(), MOST_BYTES + 1);
    }
    let with = |numbers: &[u32]| {
        let mut forest = old.clone();
        for number in numbers {
            forest.change(*number, &merged.contents[number]);
        }
        forest
    };
    known(&old, &with(by_first), &with(by_second), &merged, random)
}
