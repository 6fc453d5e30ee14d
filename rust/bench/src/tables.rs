//! Full tables to time: 64 bytes a line, so that 512 lines are 32,768 bytes.

use std::collections::HashSet;

pub const BYTES_A_LINE: usize = 64;
pub const SIZES: [usize; 4] = [64, 128, 256, 512];

pub struct Shape {
    pub name: &'static str,
    pub table: fn(usize) -> Table,
}

pub const SHAPES: [Shape; 3] = [
    Shape {
        name: "wide",
        table: wide,
    },
    Shape {
        name: "deep",
        table: deep,
    },
    Shape {
        name: "interleaved",
        table: interleaved,
    },
];

pub struct Table {
    pub text: Vec<u8>,
    /// The number on the last line.
    pub last: u32,
    /// A number that stands on no line.
    pub absent: u32,
}

impl Table {
    fn of(records: &[(u32, u32)]) -> Table {
        let met: HashSet<u32> = records.iter().map(|&(number, _)| number).collect();
        Table {
            text: records.iter().flat_map(line).collect(),
            last: records.last().map_or(0, |&(number, _)| number),
            absent: (1..=65_535)
                .rev()
                .find(|number| !met.contains(number))
                .unwrap_or(0),
        }
    }
}

/// All records but the first are children of the first.
fn wide(count: usize) -> Table {
    let records: Vec<_> = (1..=count as u32)
        .map(|number| (number, u32::from(number > 1)))
        .collect();
    Table::of(&records)
}

/// Each record is the child of the one before.
fn deep(count: usize) -> Table {
    let records: Vec<_> = (1..=count as u32)
        .map(|number| (number, number - 1))
        .collect();
    Table::of(&records)
}

/// Random numbers under random earlier records.
fn interleaved(count: usize) -> Table {
    let mut random = 0x2004_u64;
    let mut below = move |bound: usize| {
        random ^= random << 13;
        random ^= random >> 7;
        random ^= random << 17;
        (random % bound as u64) as usize
    };
    let mut met = HashSet::from([0]);
    let mut numbers = vec![0];
    let mut records = Vec::new();
    while records.len() < count {
        let number = below(65_536) as u32;
        if met.insert(number) {
            records.push((number, numbers[below(numbers.len())]));
            numbers.push(number);
        }
    }
    Table::of(&records)
}

fn line(&(number, parent): &(u32, u32)) -> Vec<u8> {
    const FIELDS: &[u8] = b"hold\tfix=TARNO\tturn=L\talt=FL120\tspeed=230\ttime=1.0\tcourse=274";
    let mut line = format!("{number}\t{parent}\t").into_bytes();
    line.extend(&FIELDS[..BYTES_A_LINE - 1 - line.len()]);
    // The cut may fall after a tab.
    if let Some(last @ b'\t') = line.last_mut() {
        *last = b'x';
    }
    line.push(b'\n');
    line
}
