//! Good random tables with some damage done to their text.

use crate::case::Case;
use crate::parts::good::draw_good;
use crate::random::Random;

pub fn draw(random: &mut Random) -> Case {
    let mut text = draw_good(random).text();
    let times = random.pick(&[1, 1, 1, 2, 3]);
    for _ in 0..times {
        damage(&mut text, random);
    }
    Case::unknown(text)
}

/// Once, in one of several ways.
pub fn damage(text: &mut Vec<u8>, random: &mut Random) {
    if text.is_empty() {
        return;
    }
    match random.below(12) {
        0 => change_byte(text, random),
        1 => drop_byte(text, random),
        2 => insert_byte(text, random),
        3 => double_byte(text, random),
        4 => replace_one(text, b'\t', b' ', random),
        5 => replace_one(text, b' ', b'\t', random),
        6 => replace_one(text, b'\n', b'\t', random),
        7 => change_digit(text, random),
        8 => change_lines(text, random, remove_line),
        9 => change_lines(text, random, double_line),
        10 => change_lines(text, random, |lines, random| swap_lines(lines, random)),
        _ => cut_end(text, random),
    }
}

/// Bytes that mean something to a reader, or any.
fn draw_byte(random: &mut Random) -> u8 {
    if random.one_in(2) {
        return random.pick(b"\t\n0159 x~\x1f\x7f\x80\x0b\x08");
    }
    random.byte()
}

fn change_byte(text: &mut [u8], random: &mut Random) {
    let place = random.below(text.len());
    text[place] = draw_byte(random);
}

fn drop_byte(text: &mut Vec<u8>, random: &mut Random) {
    text.remove(random.below(text.len()));
}

fn insert_byte(text: &mut Vec<u8>, random: &mut Random) {
    let place = random.between(0, text.len());
    text.insert(place, draw_byte(random));
}

fn double_byte(text: &mut Vec<u8>, random: &mut Random) {
    let place = random.below(text.len());
    text.insert(place, text[place]);
}

fn replace_one(text: &mut [u8], from: u8, to: u8, random: &mut Random) {
    let places: Vec<usize> = (0..text.len())
        .filter(|&place| text[place] == from)
        .collect();
    replace_at_one(text, &places, to, random);
}

/// A digit of a number or parent.
fn change_digit(text: &mut [u8], random: &mut Random) {
    let mut places = Vec::new();
    let mut tabs = 0;
    for (place, byte) in text.iter().enumerate() {
        match byte {
            b'\n' => tabs = 0,
            b'\t' => tabs += 1,
            b'0'..=b'9' if tabs < 2 => places.push(place),
            _ => (),
        }
    }
    let digit = random.pick(b"0123456789");
    replace_at_one(text, &places, digit, random);
}

fn replace_at_one(text: &mut [u8], places: &[usize], new: u8, random: &mut Random) {
    if !places.is_empty() {
        text[random.pick(places)] = new;
    }
}

type ChangeLines = fn(&mut Vec<Vec<u8>>, &mut Random);

fn change_lines(text: &mut Vec<u8>, random: &mut Random, change: ChangeLines) {
    let mut lines: Vec<Vec<u8>> = text
        .split_inclusive(|&byte| byte == b'\n')
        .map(<[u8]>::to_vec)
        .collect();
    change(&mut lines, random);
    *text = lines.concat();
}

fn remove_line(lines: &mut Vec<Vec<u8>>, random: &mut Random) {
    lines.remove(random.below(lines.len()));
}

fn double_line(lines: &mut Vec<Vec<u8>>, random: &mut Random) {
    let line = lines[random.below(lines.len())].clone();
    // At the end it may be the 513th.
    let place = match random.one_in(3) {
        true => lines.len(),
        false => random.below(lines.len()),
    };
    lines.insert(place, line);
}

fn swap_lines(lines: &mut [Vec<u8>], random: &mut Random) {
    let (one, other) = (random.below(lines.len()), random.below(lines.len()));
    lines.swap(one, other);
}

/// Often at a place where only the end of the line is missing.
fn cut_end(text: &mut Vec<u8>, random: &mut Random) {
    let left = if random.one_in(2) {
        text.len() - 1
    } else {
        random.below(text.len())
    };
    text.truncate(left);
}
