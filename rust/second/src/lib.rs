//! The second program: the calls of document 01, written from that document
//! alone. It is meant to be read against it, so it is plain before it is fast.

#![forbid(unsafe_code)]

mod facts;
mod ledger;
mod merge;
mod table;
mod written;

use facts::Facts;

pub use table::{Record, Refusal, Table};
pub use table::{GREATEST_NUMBER, LONGEST_CONTENT, MOST_BYTES, MOST_LINES, TOP};

const MERGED_TABLE_TOO_LARGE: u32 = 26;
const TABLE_BUFFER_TOO_SHORT: u32 = 31;
const LEDGER_BUFFER_TOO_SHORT: u32 = 32;

/// The answer of check. `line` is 0 when accepted; `count` and `depth` are 0
/// when refused.
#[derive(Clone, Copy, Debug, Default, PartialEq, Eq)]
pub struct Checked {
    pub code: u32,
    pub line: u32,
    pub count: usize,
    pub depth: usize,
}

/// The answer of tidy. `bytes` is the written form when accepted and empty
/// otherwise. On code 31 `length` is the one needed.
#[derive(Clone, Debug, Default, PartialEq, Eq)]
pub struct Tidied {
    pub code: u32,
    pub line: u32,
    pub length: usize,
    pub bytes: Vec<u8>,
}

/// The answer of merge. `table` is 1 for old, 2 for first and 3 for second where
/// that table is refused, else 0. `place` is a line, a record or a parent. The
/// lengths are those written, or on codes 31 and 32 those needed, else 0.
#[derive(Clone, Copy, Debug, Default, PartialEq, Eq)]
pub struct Merged {
    pub code: u32,
    pub table: u32,
    pub place: u32,
    pub table_length: usize,
    pub ledger_length: usize,
}

/// A part of a text, by where it starts and how long it is.
#[derive(Clone, Copy, Debug, Default, PartialEq, Eq)]
pub struct Part {
    pub start: usize,
    pub length: usize,
}

pub fn check(text: &[u8]) -> Checked {
    match Table::read(text) {
        Ok(table) => Checked {
            code: 0,
            line: 0,
            count: table.records().len(),
            depth: table.greatest_depth(),
        },
        Err(Refusal { code, line }) => Checked {
            code,
            line,
            count: 0,
            depth: 0,
        },
    }
}

/// `room` is the length of the lent buffer.
pub fn tidy(text: &[u8], room: usize) -> Tidied {
    let table = match Table::read(text) {
        Ok(table) => table,
        Err(Refusal { code, line }) => {
            return Tidied {
                code,
                line,
                ..Tidied::default()
            }
        }
    };
    let bytes = written::written_form(table.records());
    if bytes.len() > room {
        return Tidied {
            code: TABLE_BUFFER_TOO_SHORT,
            length: bytes.len(),
            ..Tidied::default()
        };
    }
    Tidied {
        code: 0,
        line: 0,
        length: bytes.len(),
        bytes,
    }
}

/// Where in the text the number's content stands; the empty part at the start
/// of the text for a refused table or an absent number.
pub fn content_place(text: &[u8], number: u32) -> Part {
    match Table::read(text) {
        Ok(table) => table.content_place(number),
        Err(_) => Part::default(),
    }
}

pub fn content(text: &[u8], number: u32) -> &[u8] {
    let Part { start, length } = content_place(text, number);
    &text[start..start + length]
}

/// Accepted, both buffers are written from byte 0 on. Refused, neither changes.
pub fn merge(
    old: &[u8],
    first: &[u8],
    second: &[u8],
    table: &mut [u8],
    ledger: &mut [u8],
) -> Merged {
    match merged_bytes(old, &[first, second]) {
        Ok(bytes) => bytes.put(table, ledger),
        Err(refused) => refused,
    }
}

/// The merged table and its ledger, before there is a word of room.
#[derive(Clone, Debug, PartialEq, Eq)]
pub struct MergedBytes {
    pub table: Vec<u8>,
    pub ledger: Vec<u8>,
}

impl MergedBytes {
    /// Into the two buffers, if they are long enough.
    pub fn put(&self, table: &mut [u8], ledger: &mut [u8]) -> Merged {
        let (table_length, ledger_length) = (self.table.len(), self.ledger.len());
        let told = |code| Merged {
            code,
            table_length,
            ledger_length,
            ..Merged::default()
        };
        if table_length > table.len() {
            return told(TABLE_BUFFER_TOO_SHORT);
        }
        if ledger_length > ledger.len() {
            return told(LEDGER_BUFFER_TOO_SHORT);
        }
        table[..table_length].copy_from_slice(&self.table);
        ledger[..ledger_length].copy_from_slice(&self.ledger);
        told(0)
    }
}

/// What the merge of old and its branches writes, or the answer if it is refused
/// whatever room there is.
pub fn merged_bytes(old: &[u8], branches: &[&[u8]]) -> Result<MergedBytes, Merged> {
    let old = read_numbered(1, old)?;
    let branches: Vec<Table> = (2..)
        .zip(branches)
        .map(|(number, text)| read_numbered(number, text))
        .collect::<Result<_, _>>()?;
    let facts: Vec<Facts> = branches
        .iter()
        .map(|branch| Facts::of(branch.records()))
        .collect();
    let merged = merge::merged_records(&Facts::of(old.records()), &facts)
        .map_err(|clash| refused(clash.code, 0, clash.place))?;
    let table = written::written_form(&merged);
    if merged.len() > MOST_LINES || table.len() > MOST_BYTES {
        return Err(refused(MERGED_TABLE_TOO_LARGE, 0, 0));
    }
    let ledger = ledger::ledger(&merged, &old, &branches);
    Ok(MergedBytes { table, ledger })
}

fn read_numbered(number: u32, text: &[u8]) -> Result<Table<'_>, Merged> {
    Table::read(text).map_err(|refusal| refused(refusal.code, number, refusal.line))
}

fn refused(code: u32, table: u32, place: u32) -> Merged {
    Merged {
        code,
        table,
        place,
        ..Merged::default()
    }
}
