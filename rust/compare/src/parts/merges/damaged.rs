//! Triples of which one, two or all three tables are refused.

use super::edited::{draw_old, draw_pairs};
use crate::lines::{chain, lengthen_to, text_of, tops, wide, Line};
use crate::merging::Triple;
use crate::parts::damaged::damage;
use crate::random::Random;
use crate::spoil::{spoilt, ways_count, Fault};

const CODES: usize = 10;

/// A table to be refused.
struct Refused {
    text: Vec<u8>,
    code: u32,
    line: u32,
}

/// The first refused table is known, with its code and line.
pub fn draw(random: &mut Random) -> Triple {
    let damaged = random.pick(&[
        [1, 0, 0],
        [0, 1, 0],
        [0, 0, 1],
        [1, 1, 0],
        [1, 0, 1],
        [0, 1, 1],
        [1; 3],
    ]);
    let mut texts = draw_pairs(random).texts;
    let mut told = None;
    for (place, text) in texts.iter_mut().enumerate() {
        if damaged[place] == 1 {
            let refused = draw_refused(random);
            *text = refused.text;
            told.get_or_insert((refused.code, place as u32 + 1, refused.line));
        }
    }
    let (code, table, line) = told.expect("one is damaged");
    Triple::refused(texts, code, table, line)
}

/// Damage that may do nothing, or may leave a table that can still be read.
pub fn draw_loose(random: &mut Random) -> Triple {
    let mut texts = draw_pairs(random).texts;
    for _ in 0..random.pick(&[1, 1, 1, 2, 3]) {
        damage(&mut texts[random.below(3)], random);
    }
    Triple::unknown(texts)
}

fn draw_refused(random: &mut Random) -> Refused {
    let code = random.between(1, CODES) as u32;
    match code {
        1 => too_long(random),
        2 => unended(random),
        3 => too_many_lines(random),
        _ => faulty_line(code, random),
    }
}

fn too_long(random: &mut Random) -> Refused {
    let count = random.between(264, 512);
    let mut lines = random.pick(&[tops, chain, wide])(count);
    lengthen_to(&mut lines, 32_769 + random.pick(&[0, 0, 1, 100]));
    Refused {
        text: text_of(&lines),
        code: 1,
        line: 0,
    }
}

fn unended(random: &mut Random) -> Refused {
    let lines = draw_lines(random);
    let mut text = text_of(&lines);
    text.pop();
    Refused {
        text,
        code: 2,
        line: lines.len() as u32,
    }
}

fn too_many_lines(random: &mut Random) -> Refused {
    let count = random.between(513, 540);
    let lines = random.pick(&[tops, chain, wide])(count);
    Refused {
        text: text_of(&lines),
        code: 3,
        line: 513,
    }
}

fn faulty_line(code: u32, random: &mut Random) -> Refused {
    let lines = draw_lines(random);
    // The second line at the earliest, since code 9 needs one before it.
    let at = random.between(1, lines.len() - 1);
    let way = random.below(ways_count(&lines, at, code));
    Refused {
        text: text_of(&spoilt(&lines, at, &[Fault { code, way }])),
        code,
        line: at as u32 + 1,
    }
}

/// Of a good table, two at least.
fn draw_lines(random: &mut Random) -> Vec<Line> {
    loop {
        let tree = draw_old(random).tree();
        if tree.count() > 1 {
            return tree.lines().to_vec();
        }
    }
}
