//! Each code 1 to 10 alone on an otherwise good table.

use crate::case::Case;
use crate::lines::{chain, lengthen_to, text_of, tops, wide, Line};
use crate::random::Random;
use crate::spoil::{spoilt, ways_count, Fault};
use crate::tables::draw_table;

pub fn cases() -> Vec<Case> {
    let mut cases = Vec::new();
    for lines in small_tables() {
        cases.extend(on_lines(&lines, 1));
    }
    for lines in large_tables() {
        // Not every way again: these take long to read.
        cases.extend(on_lines(&lines, 11));
    }
    cases.extend(too_long());
    cases.extend(unended());
    cases.extend(too_many_lines());
    cases
}

fn small_tables() -> Vec<Vec<Line>> {
    vec![
        tops(1),
        tops(2),
        chain(3),
        wide(9),
        mixed(7, 1),
        mixed(40, 2),
    ]
}

fn large_tables() -> Vec<Vec<Line>> {
    vec![mixed(300, 3), tops(512), chain(512), wide(512)]
}

fn mixed(count: usize, seed: u64) -> Vec<Line> {
    draw_table(count, &mut Random::new(seed)).lines
}

/// Codes 4 to 10 at the first, a middle and the last line.
fn on_lines(lines: &[Line], stride: usize) -> Vec<Case> {
    let mut places = vec![0, 1, lines.len() / 2, lines.len() - 1];
    places.retain(|&place| place < lines.len());
    places.sort();
    places.dedup();
    let mut cases = Vec::new();
    for at in places {
        for code in 4..=10 {
            for way in some_ways(ways_count(lines, at, code), stride, at) {
                let spoilt = spoilt(lines, at, &[Fault { code, way }]);
                cases.push(Case::refused(text_of(&spoilt), code, at + 1));
            }
        }
    }
    cases
}

/// All of few ways, else one in `stride`. Code 4 has by far the most, one for
/// each bad byte at each of four places. Each place in a table begins with
/// another way, so that all have their turn.
fn some_ways(ways: usize, stride: usize, at: usize) -> impl Iterator<Item = usize> {
    let stride = match ways {
        0..=20 => 1,
        21..=200 => stride,
        _ => 3 * stride,
    };
    (at % stride..ways).step_by(stride)
}

fn too_long() -> Vec<Case> {
    let mut cases = Vec::new();
    for count in [264, 300, 512] {
        for lines in [tops(count), chain(count), wide(count)] {
            for bytes in [32_769, 32_770, 32_800] {
                let mut lines = lines.clone();
                lengthen_to(&mut lines, bytes);
                cases.push(Case::refused(text_of(&lines), 1, 0));
            }
        }
    }
    cases
}

fn unended() -> Vec<Case> {
    let mut cases = Vec::new();
    for lines in small_tables().into_iter().chain(large_tables()) {
        let mut text = text_of(&lines);
        text.pop();
        cases.push(Case::refused(text.clone(), 2, lines.len()));
        // Every end of the last line, but not the LF before it.
        while text.len() > 1 && text[text.len() - 2] != b'\n' {
            text.pop();
            cases.push(Case::refused(text.clone(), 2, lines.len()));
        }
    }
    cases
}

fn too_many_lines() -> Vec<Case> {
    let mut cases = Vec::new();
    for count in 513..=540 {
        for lines in [tops(count), chain(count), wide(count)] {
            cases.push(Case::refused(text_of(&lines), 3, 513));
        }
    }
    cases
}
