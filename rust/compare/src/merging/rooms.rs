//! The lengths of the two buffers that a triple is merged into.

use crate::random::Random;
use crate::tidying::Rooms;

/// For a merge that needs so many bytes for its table and for its ledger.
pub fn draw(rooms: Rooms, needed: [usize; 2], random: &mut Random) -> Vec<[usize; 2]> {
    let [table, ledger] = needed;
    let [table_short, ledger_short] = needed.map(|needed| random.below(needed.max(1)));
    let [table_one_short, ledger_one_short] = needed.map(|needed| needed.saturating_sub(1));
    let [table_enough, ledger_enough] = needed.map(|needed| needed + random.pick(&[0, 0, 1, 100]));
    match rooms {
        Rooms::One => vec![needed],
        Rooms::Few => vec![
            [table_enough, ledger_enough],
            [random.pick(&[table_short, table_one_short]), ledger_enough],
            [table_enough, random.pick(&[ledger_short, ledger_one_short])],
        ],
        Rooms::Many => vec![
            [0, 0],
            [table, ledger],
            [table_one_short, ledger],
            [table, ledger_one_short],
            [table_one_short, ledger_one_short],
            [table_short, ledger_enough],
            [table_enough, ledger_short],
            // Those of the demonstration.
            [32_768, 8_192],
            large(needed, random),
        ],
    }
}

/// One buffer is large, among the lengths those that are 0 and 1 in 16 bits.
fn large([table, ledger]: [usize; 2], random: &mut Random) -> [usize; 2] {
    let large = random.pick(&[65_536, 65_537, 70_000]);
    if random.one_in(2) {
        [large, ledger]
    } else {
        [table, large]
    }
}
