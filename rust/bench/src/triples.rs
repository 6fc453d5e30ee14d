//! A full table as old, and two desks' edits spread over it that do not clash.

use crate::tables::Table;
use std::collections::HashMap;

pub struct Triple {
    /// Old, first and second.
    pub texts: [Vec<u8>; 3],
}

/// A line of the table with its number and parent.
#[derive(Clone)]
struct Line {
    number: Vec<u8>,
    parent: Vec<u8>,
    bytes: Vec<u8>,
}

/// So many lines have one edited content of each desk and one of both; so many
/// children of a parent have two that trade places.
const SPREAD: usize = 16;

/// Which of them it is.
const BY_FIRST: usize = 3;
const BY_BOTH: usize = 7;
const BY_SECOND: usize = 11;

impl Triple {
    pub fn of(table: &Table) -> Triple {
        let old = lines(&table.text);
        let mut branches = [old.clone(), old.clone()];
        let [first, second] = &mut branches;
        for at in 0..old.len() {
            match at % SPREAD {
                BY_FIRST => edit(&mut first[at], b'F'),
                BY_SECOND => edit(&mut second[at], b'S'),
                BY_BOTH => {
                    edit(&mut first[at], b'B');
                    edit(&mut second[at], b'B');
                }
                _ => (),
            }
        }
        for (turn, (one, other)) in pairs(&old).into_iter().enumerate() {
            branches[turn % 2].swap(one, other);
        }
        // The last line has no child, and stands in no pair.
        branches[0].pop();
        let [first, second] = &branches;
        Triple {
            texts: [&old, first, second].map(|lines| text(lines)),
        }
    }

    pub fn bytes(&self) -> usize {
        self.texts.iter().map(Vec::len).sum()
    }
}

fn lines(text: &[u8]) -> Vec<Line> {
    text.split_inclusive(|&byte| byte == b'\n')
        .map(|line| {
            let mut parts = line.splitn(3, |&byte| byte == b'\t');
            let mut part = || parts.next().unwrap_or_default().to_vec();
            Line {
                number: part(),
                parent: part(),
                bytes: line.to_vec(),
            }
        })
        .collect()
}

fn text(lines: &[Line]) -> Vec<u8> {
    lines.iter().flat_map(|line| line.bytes.clone()).collect()
}

/// The last byte of the content becomes another, which no line ends with.
fn edit(line: &mut Line, byte: u8) {
    let last = line.bytes.len() - 2;
    line.bytes[last] = byte;
}

/// Places of childless records that follow each other under one parent, far
/// enough from the next such two.
fn pairs(lines: &[Line]) -> Vec<(usize, usize)> {
    let mut lists: HashMap<&[u8], Vec<usize>> = HashMap::new();
    for (place, line) in lines.iter().enumerate() {
        lists.entry(&line.parent).or_default().push(place);
    }
    let is_free =
        |place: usize| place + 1 < lines.len() && !lists.contains_key(&lines[place].number[..]);
    let mut pairs = Vec::new();
    for list in lists.values() {
        for part in list.chunks(SPREAD) {
            if let [one, other, ..] = *part {
                if is_free(one) && is_free(other) {
                    pairs.push((one, other));
                }
            }
        }
    }
    // The map has no order of its own.
    pairs.sort();
    pairs
}

#[cfg(test)]
mod tests {
    use super::*;
    use crate::tables::{SHAPES, SIZES};

    #[test]
    fn all_merge_with_edits_of_each_desk() {
        for shape in &SHAPES {
            for count in SIZES {
                let triple = Triple::of(&(shape.table)(count));
                let [old, first, second] = triple.texts.each_ref().map(Vec::as_slice);
                let merged = second::merged_bytes(old, &[first, second]).expect("no clash");
                let ledger = String::from_utf8(merged.ledger).expect("text");
                for origin in 1..=3 {
                    let of_desk = ledger.matches(&format!("\t{origin}\t")).count();
                    assert_eq!(of_desk, count / SPREAD);
                }
                assert!(merged.table != second::tidy(old, old.len()).bytes);
            }
        }
    }
}
