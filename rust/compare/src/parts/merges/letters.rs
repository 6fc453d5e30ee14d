//! The lettered trees of document 01, with other numbers, in other line orders
//! and within larger tables.

use crate::merging::forest::{Forest, TOP};
use crate::merging::Triple;
use crate::random::Random;

enum Result {
    Tree(&'static str),
    Refused(u32, u32),
}

use Result::{Refused, Tree};

struct Letter {
    /// Old, first and second.
    trees: [&'static str; 3],
    result: Result,
}

const fn letter(trees: [&'static str; 3], result: Result) -> Letter {
    Letter { trees, result }
}

/// A to M.
const LETTERS: [Letter; 13] = [
    letter(["", "", ""], Tree("")),
    letter(["1(2 3 4)", "1(3 4)", "1(2 3 4 5)"], Tree("1(3 4 5)")),
    letter(["1 2(3 4)", "1(2(3 4))", "1 2(3 4 5)"], Tree("1(2(3 4 5))")),
    letter(["1(2)", "1(2 5)", "1(2 6)"], Refused(23, 1)),
    letter(["1(2 3 4)", "1(2 4)", "1(2 3)"], Refused(24, 1)),
    letter(["1(2 3 4 5)", "1(3 2 4 5)", "1(2 3 5 4)"], Refused(23, 1)),
    letter(["1 2", "1(2)", "2(1)"], Refused(22, 1)),
    letter(["3 1 4 2 5", "3 4 2(1) 5", "3 1(2) 4 5"], Refused(25, 1)),
    letter(["1(2)", "1", "1(2*)"], Refused(25, 2)),
    letter(["1(2(3)) 4 5", "1 4 5(3)", "1 4(2(3)) 5"], Refused(24, 2)),
    letter(["1(2) 3", "1 3", "1 3(2)"], Tree("1 3(2)")),
    letter(["1(2 3 4)", "1(2)", "1(2 3 5 4)"], Refused(25, 1)),
    letter(
        ["1(2(4 5 6) 3(7))", "1(3(7) 2(4 5 6) 8)", "1(2(5 4 6) 3*)"],
        Tree("1(3* 2(5 4 6) 8)"),
    ),
];

/// The numbers of the letters, then those of what stands around them.
const LETTER_NUMBERS: usize = 8;
const ALL_NUMBERS: usize = 13;

/// What stands around a letter in old, first, second and the result.
const AROUND: [[&str; 4]; 4] = [
    ["{}", "{}", "{}", "{}"],
    ["9({})", "9({})", "9({})", "9({})"],
    [
        "10(11) {} 12",
        "10(11) {} 12",
        "10(11) {} 12",
        "10(11) {} 12",
    ],
    // With an edit of each desk that has nothing to do with the letter.
    [
        "9(10(11) {} 12)",
        "9(10*(11) {} 12)",
        "9(10(11 13) {} 12)",
        "9(10*(11 13) {} 12)",
    ],
];

const TIMES: usize = 12;

pub fn triples() -> Vec<Triple> {
    let mut random = Random::new(13);
    let mut triples = Vec::new();
    for letter in &LETTERS {
        for around in AROUND {
            triples.push(triple(letter, around, &Vec::from_iter(0..=13), &mut random));
            for _ in 0..TIMES {
                let numbers = draw_numbers(&mut random);
                triples.push(triple(letter, around, &numbers, &mut random));
            }
        }
    }
    triples
}

/// The numbers take the places of 0 to 13.
fn triple(letter: &Letter, around: [&str; 4], numbers: &[u32], random: &mut Random) -> Triple {
    let forest = |around: &str, tree: &str| read(&around.replace("{}", tree), numbers);
    let [old, first, second] = [0, 1, 2].map(|at| forest(around[at], letter.trees[at]));
    let texts = [&old, &first, &second].map(|forest| forest.any_text(random));
    match letter.result {
        Refused(code, place) => Triple::refused(texts, code, 0, numbers[place as usize]),
        Tree(tree) => {
            let merged = forest(around[3], tree);
            Triple::merged(
                texts,
                merged.written(),
                merged.ledger([&old, &first, &second]),
            )
        }
    }
}

/// Those of the letters in rising order, so that the least stays the least.
fn draw_numbers(random: &mut Random) -> Vec<u32> {
    let mut drawn = crate::tables::draw_numbers(ALL_NUMBERS, random);
    drawn[..LETTER_NUMBERS].sort();
    drawn.insert(0, TOP);
    drawn
}

/// 1(2 3*) is record 1 with the children 2 and 3, of which 3 has a new content.
fn read(tree: &str, numbers: &[u32]) -> Forest {
    let mut forest = Forest::empty();
    let mut parents = vec![TOP];
    let mut last = TOP;
    let spaced = tree.replace('(', " ( ").replace(')', " ) ");
    for word in spaced.split_whitespace() {
        match word {
            "(" => parents.push(last),
            ")" => drop(parents.pop()),
            _ => {
                let plain = word.trim_end_matches('*');
                let content = if plain == word { "old" } else { "new\tx" };
                last = numbers[plain.parse::<usize>().expect("a number")];
                let parent = parents[parents.len() - 1];
                forest.insert(last, parent, usize::MAX, content.as_bytes());
            }
        }
    }
    forest
}

#[test]
fn trees_are_read() {
    let forest = read("1(2 3*(4)) 5", &[0, 10, 20, 30, 40, 50]);
    assert_eq!(
        forest.written(),
        b"10\t0\told\n20\t10\told\n30\t10\tnew\tx\n40\t30\told\n50\t0\told\n"
    );
}
