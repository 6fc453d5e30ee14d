//! The table as text: reading it, and codes 1 to 10.

use crate::Part;
use std::collections::HashMap;

pub const MOST_BYTES: usize = 32_768;
pub const MOST_LINES: usize = 512;
pub const LONGEST_CONTENT: usize = 120;
pub const GREATEST_NUMBER: u32 = 65_535;

/// The parent of a record that has no record for a parent.
pub const TOP: u32 = 0;

const TAB: u8 = 9;
const LF: u8 = 10;

const TEXT_TOO_LONG: u32 = 1;
const UNENDED_LINE: u32 = 2;
const TOO_MANY_LINES: u32 = 3;
const BAD_BYTE: u32 = 4;
const TOO_FEW_TABS: u32 = 5;
const BAD_NUMBER: u32 = 6;
const BAD_PARENT: u32 = 7;
const BAD_CONTENT: u32 = 8;
const NUMBER_TWICE: u32 = 9;
const PARENT_NOT_EARLIER: u32 = 10;

/// Why a table is refused: the code and its line.
#[derive(Clone, Copy, Debug, PartialEq, Eq)]
pub struct Refusal {
    pub code: u32,
    pub line: u32,
}

#[derive(Clone, Copy, Debug, PartialEq, Eq)]
pub struct Record<'t> {
    pub number: u32,
    pub parent: u32,
    pub content: &'t [u8],
}

/// An accepted table, or the accepted lines of one being read.
#[derive(Clone, Debug, Default)]
pub struct Table<'t> {
    /// In line order.
    records: Vec<Record<'t>>,
    /// Where in the text the content of each record starts.
    content_starts: Vec<usize>,
    /// Number to place in both.
    place_of: HashMap<u32, usize>,
}

impl<'t> Table<'t> {
    /// Codes 1 and 2 for the whole text; then the first faulty line.
    pub fn read(text: &'t [u8]) -> Result<Table<'t>, Refusal> {
        whole_text(text)?;
        let mut table = Table::default();
        let mut line_start = 0;
        for ended_line in text.split_inclusive(|&byte| byte == LF) {
            let line = &ended_line[..ended_line.len() - 1];
            match table.record_of_line(line) {
                Ok(record) => {
                    let content_end = line_start + line.len();
                    table.add(record, content_end - record.content.len());
                }
                Err(code) => {
                    return Err(Refusal {
                        code,
                        line: table.records.len() as u32 + 1,
                    })
                }
            }
            line_start += ended_line.len();
        }
        Ok(table)
    }

    /// The records in line order.
    pub fn records(&self) -> &[Record<'t>] {
        &self.records
    }

    pub fn record(&self, number: u32) -> Option<&Record<'t>> {
        self.place_of
            .get(&number)
            .map(|&place| &self.records[place])
    }

    /// The empty part at the start of the text for an absent number.
    pub fn content_place(&self, number: u32) -> Part {
        match self.place_of.get(&number) {
            Some(&place) => Part {
                start: self.content_starts[place],
                length: self.records[place].content.len(),
            },
            None => Part::default(),
        }
    }

    /// 0 for an empty table.
    pub fn greatest_depth(&self) -> usize {
        let mut depth_of = HashMap::from([(TOP, 0)]);
        let mut greatest = 0;
        // A parent stands on an earlier line, so its depth is known by then.
        for record in &self.records {
            let depth = depth_of[&record.parent] + 1;
            depth_of.insert(record.number, depth);
            greatest = greatest.max(depth);
        }
        greatest
    }

    fn has(&self, number: u32) -> bool {
        self.place_of.contains_key(&number)
    }

    fn add(&mut self, record: Record<'t>, content_start: usize) {
        self.place_of.insert(record.number, self.records.len());
        self.records.push(record);
        self.content_starts.push(content_start);
    }

    /// The record on the line after those read, or the lowest of the codes 3
    /// to 10 that hold for it. They are tried in number order.
    fn record_of_line(&self, line: &'t [u8]) -> Result<Record<'t>, u32> {
        if self.records.len() == MOST_LINES {
            return Err(TOO_MANY_LINES);
        }
        if !line.iter().copied().all(may_stand_in_line) {
            return Err(BAD_BYTE);
        }
        let parts: Vec<&[u8]> = line.splitn(3, |&byte| byte == TAB).collect();
        let [number_digits, parent_digits, content] = parts[..] else {
            return Err(TOO_FEW_TABS);
        };
        let number = match decimal(number_digits) {
            Some(number) if number >= 1 => number,
            _ => return Err(BAD_NUMBER),
        };
        let parent = decimal(parent_digits).ok_or(BAD_PARENT)?;
        if !is_good_content(content) {
            return Err(BAD_CONTENT);
        }
        if self.has(number) {
            return Err(NUMBER_TWICE);
        }
        if parent != TOP && !self.has(parent) {
            return Err(PARENT_NOT_EARLIER);
        }
        Ok(Record {
            number,
            parent,
            content,
        })
    }
}

/// Codes 1 and 2.
fn whole_text(text: &[u8]) -> Result<(), Refusal> {
    if text.len() > MOST_BYTES {
        return Err(Refusal {
            code: TEXT_TOO_LONG,
            line: 0,
        });
    }
    if text.last().is_some_and(|&byte| byte != LF) {
        let ended_lines = text.iter().filter(|&&byte| byte == LF).count();
        return Err(Refusal {
            code: UNENDED_LINE,
            line: ended_lines as u32 + 1,
        });
    }
    Ok(())
}

fn may_stand_in_line(byte: u8) -> bool {
    byte == TAB || (32..=126).contains(&byte)
}

/// The value of a decimal of 0 to 65,535 without leading zero.
fn decimal(digits: &[u8]) -> Option<u32> {
    if digits.is_empty() || !digits.iter().all(u8::is_ascii_digit) {
        return None;
    }
    if digits[0] == b'0' && digits.len() > 1 {
        return None;
    }
    let mut value = 0;
    for digit in digits {
        value = value * 10 + u32::from(digit - b'0');
        // Left here, so that no length of digits can overflow.
        if value > GREATEST_NUMBER {
            return None;
        }
    }
    Some(value)
}

fn is_good_content(content: &[u8]) -> bool {
    // An empty content is one empty field.
    content.len() <= LONGEST_CONTENT
        && content
            .split(|&byte| byte == TAB)
            .all(|field| !field.is_empty())
}
