//! Good random tables, with the depth their maker gave them.

use crate::lines::{text_of, Line};
use crate::random::Random;
use std::collections::HashSet;

pub const MOST_BYTES: usize = 32_768;
pub const MOST_LINES: usize = 512;
pub const LONGEST_CONTENT: usize = 120;

/// Digits of number and parent, two tabs and LF at their most.
const MOST_BESIDE_CONTENT: usize = 13;

#[derive(Clone, Debug)]
pub struct GoodTable {
    pub lines: Vec<Line>,
    pub depth: usize,
}

impl GoodTable {
    pub fn text(&self) -> Vec<u8> {
        text_of(&self.lines)
    }
}

/// Which earlier record a new one goes under.
#[derive(Clone, Copy)]
enum Shape {
    Tops,
    Chain,
    Wide,
    /// Any earlier record.
    Anywhere,
    /// One of the last few, so deep but interleaved.
    Recent,
    /// Several chains growing in turn.
    Chains(usize),
    /// Some of everything.
    Mixed,
}

impl Shape {
    fn draw(random: &mut Random) -> Shape {
        match random.below(9) {
            0 => Shape::Tops,
            1 => Shape::Chain,
            2 => Shape::Wide,
            3 | 4 => Shape::Anywhere,
            5 => Shape::Recent,
            6 => Shape::Chains(random.between(2, 9)),
            _ => Shape::Mixed,
        }
    }

    /// The place of the parent among the `earlier` records, or none for the top.
    fn parent(self, earlier: usize, random: &mut Random) -> Option<usize> {
        if earlier == 0 {
            return None;
        }
        match self {
            Shape::Tops => None,
            Shape::Chain => Some(earlier - 1),
            Shape::Wide => Some(0),
            Shape::Anywhere => random.below(earlier + 1).checked_sub(1),
            Shape::Recent => Some(earlier - random.between(1, earlier.min(4))),
            Shape::Chains(chains) => earlier.checked_sub(chains),
            Shape::Mixed => match random.below(8) {
                0 => None,
                1 => Some(0),
                2..=4 => Some(earlier - 1),
                5 => Some(earlier - random.between(1, earlier.min(4))),
                _ => Some(random.below(earlier)),
            },
        }
    }
}

/// Mostly small, so that many can be run, but some up to the limits.
pub fn draw_line_count(random: &mut Random) -> usize {
    match random.below(100) {
        0..=69 => random.between(1, 12),
        70..=89 => random.between(1, 40),
        90..=96 => random.between(1, 120),
        97 | 98 => random.between(1, MOST_LINES),
        _ => MOST_LINES,
    }
}

pub fn draw_table(count: usize, random: &mut Random) -> GoodTable {
    let numbers = draw_numbers(count, random);
    let contents = draw_contents(count, random);
    let shape = Shape::draw(random);
    let mut depths: Vec<usize> = Vec::with_capacity(count);
    let mut lines = Vec::with_capacity(count);
    for (place, content) in contents.into_iter().enumerate() {
        let parent = shape.parent(place, random);
        depths.push(1 + parent.map_or(0, |parent| depths[parent]));
        let parent_number = parent.map_or(0, |parent| numbers[parent]);
        lines.push(Line::new(numbers[place], parent_number, content));
    }
    let depth = depths.into_iter().max().unwrap_or(0);
    GoodTable { lines, depth }
}

/// Different numbers in random order, from a narrow or the whole range.
pub fn draw_numbers(count: usize, random: &mut Random) -> Vec<u32> {
    let ranges = [
        (1, count),
        (1, 3 * count),
        (1, 65_535),
        (65_536 - count, 65_535),
    ];
    let (least, most) = random.pick(&ranges);
    let mut met = HashSet::new();
    let mut numbers = Vec::with_capacity(count);
    while numbers.len() < count {
        let number = random.between(least, most) as u32;
        if met.insert(number) {
            numbers.push(number);
        }
    }
    numbers
}

/// Contents of 1 to 120 bytes that fit together in a table.
pub fn draw_contents(count: usize, random: &mut Random) -> Vec<Vec<u8>> {
    let longest = random.pick(&[1, 8, 30, 51, LONGEST_CONTENT, LONGEST_CONTENT]);
    let mut room = MOST_BYTES - count * (MOST_BESIDE_CONTENT + 1);
    let mut lengths = Vec::with_capacity(count);
    for _ in 0..count {
        let most = longest.min(1 + room);
        let length = match random.below(8) {
            0 => most,
            1 => 1,
            _ => random.between(1, most),
        };
        room -= length - 1;
        lengths.push(length);
    }
    random.shuffle(&mut lengths);
    lengths
        .into_iter()
        .map(|length| draw_content(length, random))
        .collect()
}

/// Fields parted by single tabs, of that many bytes in all.
pub fn draw_content(length: usize, random: &mut Random) -> Vec<u8> {
    let plain = random.one_in(2);
    let between_tabs = random.pick(&[2, 4, 10, 200]);
    let mut content: Vec<u8> = Vec::with_capacity(length);
    for place in 0..length {
        let inside = place > 0 && place + 1 < length && content[place - 1] != b'\t';
        if inside && random.one_in(between_tabs) {
            content.push(b'\t');
        } else if plain {
            content.push(random.pick(b"ABEKNORSTabeknorst0123456789=-/."));
        } else {
            content.push(random.between(32, 126) as u8);
        }
    }
    content
}
