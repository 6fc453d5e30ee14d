//! Good random tables.

use crate::case::Case;
use crate::lines::lengthen_to;
use crate::random::Random;
use crate::tables::{draw_line_count, draw_table, GoodTable};

pub fn draw(random: &mut Random) -> Case {
    let table = draw_good(random);
    Case::accepted(table.text(), table.lines.len(), table.depth)
}

/// Of the large ones half are filled.
pub fn draw_good(random: &mut Random) -> GoodTable {
    let count = draw_line_count(random);
    let mut table = draw_table(count, random);
    if count > 300 && random.one_in(2) {
        fill(&mut table);
    }
    table
}

/// To 32,768 bytes if the contents have room for them.
fn fill(table: &mut GoodTable) {
    let room: usize = table
        .lines
        .iter()
        .map(|line| 120 - line.content.len())
        .sum();
    if table.text().len() + room >= 32_768 {
        lengthen_to(&mut table.lines, 32_768);
    }
}
