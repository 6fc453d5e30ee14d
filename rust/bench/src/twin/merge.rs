//! Merge: a fixed number of questions for each line of the three tables and of
//! the merged one, so that the time goes with the number of lines.

use super::decimal::{digits, write_decimal};
use super::edits::{Branch, Clashes};
use super::links::Links;
use super::reading::Refusal;
use super::walk::{Laid, Walk};
use second::{Merged, MOST_BYTES, MOST_LINES};

const BROKEN_LIST: u32 = 24;
const LOST_EDIT: u32 = 25;
const MERGED_TABLE_TOO_LARGE: u32 = 26;
const TABLE_BUFFER_TOO_SHORT: u32 = 31;
const LEDGER_BUFFER_TOO_SHORT: u32 = 32;

const TOTAL: &[u8] = b"total\t";

pub fn merge(
    old: &[u8],
    first: &[u8],
    second: &[u8],
    table: &mut [u8],
    ledger: &mut [u8],
) -> Merged {
    let texts = [old, first, second];
    let mut links = [Links::EMPTY; 3];
    for (place, text) in texts.iter().enumerate() {
        if let Err(Refusal { code, line }) = links[place].read(text) {
            return refused(code, place as u32 + 1, line);
        }
    }
    let [old_links, first_links, second_links] = &links;
    let branches = [
        Branch::new(first, first_links, old, old_links),
        Branch::new(second, second_links, old, old_links),
    ];
    if let Some((code, place)) = Clashes::between(&branches[0], &branches[1]).lowest() {
        return refused(code, 0, u32::from(place));
    }
    let mut walk = Walk::new(old_links, &branches);
    if let Some(place) = walk.walk() {
        return refused(BROKEN_LIST, 0, u32::from(place));
    }
    if let Some(place) = walk.lost_edit() {
        return refused(LOST_EDIT, 0, u32::from(place));
    }
    if walk.count > MOST_LINES || walk.table_length > MOST_BYTES {
        return refused(MERGED_TABLE_TOO_LARGE, 0, 0);
    }
    pack(&texts, &walk, table, ledger)
}

/// Codes 31, 32 and 0.
fn pack(texts: &[&[u8]; 3], walk: &Walk, table: &mut [u8], ledger: &mut [u8]) -> Merged {
    // Within the limits both sums have 16 bits.
    let total = [walk.count as u16, walk.content_bytes as u16];
    let total_length = TOTAL.len() + digits(total[0]) + digits(total[1]) + 2;
    let mut merged = Merged {
        table_length: walk.table_length,
        ledger_length: walk.ledger_length + total_length,
        ..Merged::default()
    };
    let Some(table) = table.get_mut(..merged.table_length) else {
        merged.code = TABLE_BUFFER_TOO_SHORT;
        return merged;
    };
    let Some(ledger) = ledger.get_mut(..merged.ledger_length) else {
        merged.code = LEDGER_BUFFER_TOO_SHORT;
        return merged;
    };
    write(texts, walk, table, ledger);
    let place = walk.ledger_length;
    ledger[place..place + TOTAL.len()].copy_from_slice(TOTAL);
    let place = write_decimal(total[0], ledger, place + TOTAL.len());
    let place = write_decimal(total[1], ledger, place);
    end_line(ledger, place);
    merged
}

/// All records in written order, into both buffers at once.
fn write(texts: &[&[u8]; 3], walk: &Walk, table: &mut [u8], ledger: &mut [u8]) {
    let laid = &walk.laid[..=walk.count];
    let (mut in_table, mut in_ledger) = (0, 0);
    let mut line = laid[0].first_line;
    while line != 0 {
        let record = &laid[usize::from(line)];
        in_table = write_row(texts, record, table, in_table);
        in_ledger = write_decimal(record.number, ledger, in_ledger);
        in_ledger = write_decimal(record.origin, ledger, in_ledger);
        in_ledger = write_decimal(record.length, ledger, in_ledger);
        end_line(ledger, in_ledger);
        line = match record.first_line {
            0 => after_all_below(laid, line),
            child => child,
        };
    }
}

/// The line feed takes the place of the last tab.
#[inline(always)]
fn end_line(written: &mut [u8], place: usize) {
    written[place - 1] = b'\n';
}

/// The place after what was written.
#[inline(always)]
fn write_row(texts: &[&[u8]; 3], record: &Laid, table: &mut [u8], place: usize) -> usize {
    let place = write_decimal(record.number, table, place);
    let place = write_decimal(record.parent, table, place);
    // What both desks hold is taken from the first.
    let text = texts[[0, 1, 2, 1][usize::from(record.origin)]];
    let start = usize::from(record.content);
    // Its line feed stands behind it.
    let length = usize::from(record.length) + 1;
    table[place..place + length].copy_from_slice(&text[start..start + length]);
    place + length
}

/// The next in the list, of the record or of the nearest above that has one.
#[inline(always)]
fn after_all_below(laid: &[Laid], mut line: u16) -> u16 {
    while line != 0 {
        let record = &laid[usize::from(line)];
        if record.follower != 0 {
            // The records of a list stand on lines that follow each other.
            return line + 1;
        }
        line = record.above;
    }
    0
}

#[cold]
fn refused(code: u32, table: u32, place: u32) -> Merged {
    Merged {
        code,
        table,
        place,
        ..Merged::default()
    }
}

#[cfg(test)]
mod tests {
    use super::merge;
    use crate::twin::tests::Random;

    type Row = (usize, usize, u8);
    type Merge = fn(&[u8], &[u8], &[u8], &mut [u8], &mut [u8]) -> second::Merged;

    /// A few rows, mostly those of the table, in an order that may be faulty.
    fn changed(rows: &[Row], random: &mut Random) -> Vec<Row> {
        let mut rows = rows.to_vec();
        for _ in 0..random.below(4) {
            let place = random.below(rows.len() + 1);
            let row = (1 + random.below(9), random.below(9), b'x');
            match random.below(6) {
                0 => rows.insert(place, row),
                _ if place == rows.len() => rows.push(row),
                1 => rows[place].2 = b'y' + random.below(2) as u8,
                2 => rows[place].1 = row.1,
                3 => drop(rows.remove(place)),
                _ => {
                    let moved = rows.remove(place);
                    rows.insert(random.below(rows.len() + 1), moved);
                }
            }
        }
        rows
    }

    /// Without the rows that would be refused, but for one time in many.
    fn text(rows: &[Row], random: &mut Random) -> Vec<u8> {
        let strict = random.below(40) > 0;
        let mut met = vec![0];
        let mut text = Vec::new();
        for &(number, parent, content) in rows {
            if !strict || (met.contains(&parent) && !met.contains(&number)) {
                met.push(number);
                text.extend(format!("{number}\t{parent}\t{}\n", char::from(content)).bytes());
            }
        }
        text
    }

    fn same(texts: [&[u8]; 3], rooms: [usize; 2]) -> u32 {
        let run = |merge: Merge| {
            let [mut table, mut ledger] = rooms.map(|room| vec![b'.'; room]);
            let [old, first, second] = texts;
            let merged = merge(old, first, second, &mut table, &mut ledger);
            (merged, table, ledger)
        };
        let (wanted, answered) = (run(second::merge), run(merge));
        let shown = texts.map(|text| text.escape_ascii().to_string());
        assert_eq!(wanted, answered, "{shown:#?}");
        wanted.0.code
    }

    #[test]
    fn small_triples() {
        let mut random = Random(3);
        let mut met = [0; 33];
        for _ in 0..60_000 {
            let rows: Vec<Row> = (1..=random.below(9))
                .map(|number| (number, random.below(number), b'x'))
                .collect();
            let old = text(&rows, &mut random);
            let first = text(&changed(&rows, &mut random), &mut random);
            let second = text(&changed(&rows, &mut random), &mut random);
            for rooms in [[100, 100], [random.below(60), random.below(60)]] {
                met[same([&old, &first, &second], rooms) as usize] += 1;
            }
        }
        for code in [0, 9, 10, 21, 22, 23, 24, 25, 31, 32] {
            assert!(met[code] > 100, "{code}: {met:?}");
        }
    }
}
