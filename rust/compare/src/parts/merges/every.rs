//! Every triple of trees of at most three records, the positions being all that
//! differs.

use crate::merging::forest::{Forest, TOP};
use crate::merging::Triple;

const NUMBERS: [u32; 3] = [1, 2, 3];

pub fn triples() -> Vec<Triple> {
    let texts: Vec<Vec<u8>> = trees().iter().map(Forest::written).collect();
    let mut triples = Vec::with_capacity(texts.len().pow(3));
    for old in &texts {
        for first in &texts {
            for second in &texts {
                let texts = [old, first, second].map(Vec::clone);
                triples.push(Triple::unknown(texts));
            }
        }
    }
    triples
}

/// All trees over some of the numbers, each once: a tree is that of one record
/// less, with the next in written order put last under the one before or under
/// one above that.
fn trees() -> Vec<Forest> {
    let mut trees = vec![Forest::empty()];
    let mut grown = trees.clone();
    while !grown.is_empty() {
        grown = grown.iter().flat_map(with_one_more).collect();
        trees.extend(grown.clone());
    }
    trees
}

fn with_one_more(tree: &Forest) -> Vec<Forest> {
    let mut more = Vec::new();
    for number in NUMBERS.into_iter().filter(|&number| !tree.has(number)) {
        for parent in last_and_above(tree) {
            let mut tree = tree.clone();
            tree.insert(number, parent, usize::MAX, b"x");
            more.push(tree);
        }
    }
    more
}

/// The top, its last child, the last child of that, and so on.
fn last_and_above(tree: &Forest) -> Vec<u32> {
    let mut path = vec![TOP];
    while let Some(&last) = tree.lists[&path[path.len() - 1]].last() {
        path.push(last);
    }
    path
}

#[test]
fn each_tree_once() {
    use std::collections::BTreeSet;
    let texts: BTreeSet<Vec<u8>> = trees().iter().map(Forest::written).collect();
    // None, three of one, six times two of two, six times five of three.
    assert_eq!(texts.len(), 1 + 3 + 12 + 30);
    assert_eq!(trees().len(), texts.len());
}
