//! Lines drawn loosely, so that most are right or nearly so.

use crate::case::Case;
use crate::random::Random;
use crate::spoil::is_bad_byte;
use crate::tables::{draw_content, draw_line_count};

/// How loosely a text is drawn: one line in so many has a fault of a kind.
struct Looseness {
    one_in: usize,
    /// Numbers and parents are drawn up to this, so that they meet.
    most: usize,
}

pub fn draw(random: &mut Random) -> Case {
    let count = match random.below(150) {
        0 => random.between(505, 560),
        _ => draw_line_count(random),
    };
    let looseness = Looseness {
        one_in: random.pick(&[3, 10, 30, 4 * count, 20 * count]),
        most: random.pick(&[3, count, 3 * count, 40 * count, 65_535]),
    };
    let mut text = Vec::new();
    for line in 1..=count {
        draw_line(line, &looseness, random, &mut text);
    }
    if random.one_in(60) {
        text.pop();
    }
    Case::unknown(text)
}

fn draw_line(line: usize, looseness: &Looseness, random: &mut Random, text: &mut Vec<u8>) {
    text.extend(draw_number(line, looseness, random));
    text.extend(draw_parting(looseness, random));
    text.extend(draw_parent(line, looseness, random));
    text.extend(draw_parting(looseness, random));
    text.extend(draw_loose_content(looseness, random));
    if random.one_in(4 * looseness.one_in) {
        text.push(draw_bad_byte(random));
    }
    text.push(b'\n');
}

/// Mostly the line's own, since drawn numbers soon meet.
fn draw_number(line: usize, looseness: &Looseness, random: &mut Random) -> Vec<u8> {
    if random.one_in(looseness.one_in) {
        return draw_digits(looseness.most, random);
    }
    line.to_string().into_bytes()
}

fn draw_parent(line: usize, looseness: &Looseness, random: &mut Random) -> Vec<u8> {
    if random.one_in(looseness.one_in) {
        return draw_digits(looseness.most, random);
    }
    random.below(line).to_string().into_bytes()
}

/// Right as often as not.
fn draw_digits(most: usize, random: &mut Random) -> Vec<u8> {
    let number = random.between(0, most);
    match random.below(14) {
        0 => Vec::new(),
        1 => format!("0{number}").into_bytes(),
        2 => (65_536 + number).to_string().into_bytes(),
        3 => random.between(65_530, 65_540).to_string().into_bytes(),
        4 => format!("{number} ").into_bytes(),
        5 => format!("{number}{}", random.pick(&["a", "/", ":", "-"])).into_bytes(),
        6 => (0..random.between(1, 25))
            .map(|_| random.pick(b"0123456789"))
            .collect(),
        _ => number.to_string().into_bytes(),
    }
}

fn draw_parting(looseness: &Looseness, random: &mut Random) -> &'static [u8] {
    if random.one_in(4 * looseness.one_in) {
        return random.pick(&[&b""[..], b" ", b"\t\t", b"\t \t"]);
    }
    b"\t"
}

fn draw_loose_content(looseness: &Looseness, random: &mut Random) -> Vec<u8> {
    if !random.one_in(2 * looseness.one_in) {
        let length = random.between(1, 40);
        return draw_content(length, random);
    }
    let length = random.pick(&[0, 1, 2, 119, 120, 121, 122, 200]);
    let mut content = draw_content(length, random);
    if length > 0 && random.one_in(2) {
        let place = random.below(length);
        content[place] = b'\t';
    }
    content
}

fn draw_bad_byte(random: &mut Random) -> u8 {
    loop {
        let byte = random.byte();
        if is_bad_byte(byte) {
            return byte;
        }
    }
}
