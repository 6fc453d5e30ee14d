//! Merged tables at, just inside and just outside the limits. What each desk
//! inserts stands in a list of its own, so the merged table is known.

use super::disjoint::known;
use crate::merging::forest::{Forest, TOP};
use crate::merging::Triple;
use crate::random::Random;
use crate::tables::{draw_content, LONGEST_CONTENT};

/// The only record of old: first inserts under it, second beside it at the top.
const ROOT: u32 = 300;

/// How the inserted records hang together.
#[derive(Clone, Copy)]
enum Shape {
    List,
    Chain,
}

const SHAPES: [Shape; 2] = [Shape::List, Shape::Chain];

pub fn triples() -> Vec<Triple> {
    let mut random = Random::new(26);
    [records(&mut random), bytes(&mut random)].concat()
}

/// By the number of records, with short contents.
fn records(random: &mut Random) -> Vec<Triple> {
    let mut triples = Vec::new();
    for shape in SHAPES {
        for count in [
            505_usize, 510, 511, 512, 513, 514, 520, 600, 768, 1_000, 1_022, 1_023,
        ] {
            for _ in 0..8 {
                // Neither may have more than 512.
                let first = random.between(count.saturating_sub(512), (count - 1).min(511));
                let numbers = draw_all_numbers(random);
                let inserted = numbers[..count - 1].split_at(first);
                triples.push(triple(shape, inserted, None, random));
            }
        }
    }
    triples
}

/// By the bytes, with contents that are lengthened to so many.
fn bytes(random: &mut Random) -> Vec<Triple> {
    let mut triples = Vec::new();
    for shape in SHAPES {
        for bytes in [
            32_000, 32_766, 32_767, 32_768, 32_769, 32_770, 33_000, 40_000, 45_000,
        ] {
            for count in [400, 500, 511, 512] {
                for _ in 0..3 {
                    let first = random.between(count / 3, count / 2);
                    let numbers = draw_all_numbers(random);
                    let inserted = numbers[..count - 1].split_at(first);
                    triples.push(triple(shape, inserted, Some(bytes), random));
                }
            }
        }
    }
    triples
}

/// All but that of the record that is there.
fn draw_all_numbers(random: &mut Random) -> Vec<u32> {
    let (least, most) = random.pick(&[(1, 1_100), (9_500, 10_600), (64_400, 65_535)]);
    let mut numbers: Vec<u32> = (least..=most).filter(|&number| number != ROOT).collect();
    random.shuffle(&mut numbers);
    numbers
}

fn triple(
    shape: Shape,
    (by_first, by_second): (&[u32], &[u32]),
    bytes: Option<usize>,
    random: &mut Random,
) -> Triple {
    let mut merged = Forest::empty();
    merged.insert(ROOT, TOP, 0, b"airport");
    hang(&mut merged, shape, ROOT, by_first);
    hang(&mut merged, shape, TOP, by_second);
    if let Some(bytes) = bytes {
        lengthen(&mut merged, bytes, random);
    }
    let [mut old, mut first, mut second] = [(); 3].map(|()| merged.clone());
    remove(&mut old, by_first);
    remove(&mut old, by_second);
    remove(&mut first, by_second);
    remove(&mut second, by_first);
    let [first, second] = match random.one_in(2) {
        true => [first, second],
        false => [second, first],
    };
    known(&old, &first, &second, &merged, random)
}

fn hang(forest: &mut Forest, shape: Shape, above: u32, numbers: &[u32]) {
    let mut parent = above;
    for &number in numbers {
        forest.insert(number, parent, usize::MAX, b"x");
        if let Shape::Chain = shape {
            parent = number;
        }
    }
}

fn remove(forest: &mut Forest, numbers: &[u32]) {
    for &number in numbers {
        // Another may have gone with all below it.
        if forest.has(number) {
            forest.delete(number);
        }
    }
}

/// Spread over all contents, in as many steps as it takes.
fn lengthen(forest: &mut Forest, bytes: usize, random: &mut Random) {
    let mut missing = bytes - forest.written().len();
    let numbers = forest.records();
    let mut lengths: Vec<usize> = numbers
        .iter()
        .map(|number| forest.contents[number].len())
        .collect();
    while missing > 0 {
        let length = &mut lengths[random.below(numbers.len())];
        let added = random.between(0, missing.min(LONGEST_CONTENT - *length));
        *length += added;
        missing -= added;
    }
    for (number, length) in numbers.into_iter().zip(lengths) {
        let content = draw_content(length, random);
        forest.change(number, &content);
    }
}

#[test]
fn every_limit_is_met() {
    use crate::merging::Known;
    let mut exact = (0, 0);
    let mut over = 0;
    for triple in triples() {
        match triple.known {
            Some(Known::Merged { table, .. }) => {
                let lines = table.iter().filter(|&&byte| byte == b'\n').count();
                exact.0 += usize::from(lines == 512);
                exact.1 += usize::from(table.len() == 32_768);
            }
            Some(Known::Refused { code: 26, .. }) => over += 1,
            known => panic!("{known:?}"),
        }
    }
    assert!(
        exact.0 > 30 && exact.1 > 20 && over > 200,
        "{exact:?} {over}"
    );
}
