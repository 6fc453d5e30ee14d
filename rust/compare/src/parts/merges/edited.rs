//! A random old table, and both desks with some random edits.

use crate::merging::edits::Desk;
use crate::merging::forest::Forest;
use crate::merging::Triple;
use crate::random::Random;
use crate::tables::draw_numbers;
use crate::trees::{Tree, GROWTHS};

/// How many numbers that old has not the desks can use.
const SPARE: usize = 5;

/// Edits that know nothing of each other.
pub fn draw(random: &mut Random) -> Triple {
    let old = draw_old(random);
    draw_edited(&old, 0, random)
}

/// Among them pairs of edits that have to do with each other.
pub fn draw_pairs(random: &mut Random) -> Triple {
    let old = draw_old(random);
    let pairs = random.pick(&[1, 1, 1, 2, 3]);
    draw_edited(&old, pairs, random)
}

pub fn draw_edited(old: &Forest, pairs: usize, random: &mut Random) -> Triple {
    let spare = draw_spare(old, SPARE, random);
    let mut branches = [old.clone(), old.clone()];
    let desk = Desk {
        forest: old,
        spare: &spare,
    };
    for _ in 0..pairs {
        let pair = desk.draw_pair(random);
        for (branch, edit) in branches.iter_mut().zip(pair) {
            edit.make(branch);
        }
    }
    for branch in &mut branches {
        for _ in 0..draw_edit_count(pairs, random) {
            let desk = Desk {
                forest: branch,
                spare: &spare,
            };
            desk.draw_edit(random).make(branch);
        }
    }
    let [first, second] = branches;
    Triple::unknown([old, &first, &second].map(|forest| forest.any_text(random)))
}

/// The more edits, the more surely they clash.
fn draw_edit_count(pairs: usize, random: &mut Random) -> usize {
    match pairs {
        0 => random.pick(&[0, 1, 1, 1, 2, 2, 3, 4, 6]),
        _ => random.pick(&[0, 0, 0, 0, 1, 2]),
    }
}

pub fn draw_old(random: &mut Random) -> Forest {
    let count = match random.below(20) {
        0..=4 => random.between(0, 3),
        5..=13 => random.between(2, 12),
        _ => random.between(6, 40),
    };
    draw_forest(count, random)
}

pub fn draw_forest(count: usize, random: &mut Random) -> Forest {
    Forest::of(&Tree::grow(random.pick(&GROWTHS), count, random))
}

/// Some numbers that the table has not.
pub fn draw_spare(forest: &Forest, count: usize, random: &mut Random) -> Vec<u32> {
    let enough = forest.contents.len() + count;
    let mut numbers = draw_numbers(enough, random);
    numbers.retain(|&number| !forest.has(number));
    numbers.truncate(count);
    numbers
}
