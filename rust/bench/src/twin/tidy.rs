//! Tidy: each record holds its first child and its next sibling by their lines,
//! so that reading and writing both take one step a line.

use super::decimal::write_decimal;
use super::reading::{read_lines, Refusal};
use super::NUMBERS;
use bridge::Tidied;
use second::MOST_LINES;

const TABLE_BUFFER_TOO_SHORT: u32 = 31;

/// What stands on one line. Other records are told by their lines: 0 is the top
/// above, and no record elsewhere.
#[derive(Clone, Copy, Default)]
struct Record {
    number: u16,
    parent: u16,
    above: u16,
    first_child: u16,
    last_child: u16,
    next_sibling: u16,
    /// Where the content starts in the text.
    content: u16,
    /// Of the content with its LF.
    length: u16,
}

type Records = [Record; MOST_LINES + 1];

pub fn tidy(text: &[u8], buffer: &mut [u8]) -> Tidied {
    let mut records = [Record::default(); MOST_LINES + 1];
    if let Err(Refusal { code, line }) = read(text, &mut records) {
        return Tidied {
            code,
            line,
            length: 0,
        };
    }
    // The same lines in another order are as many bytes.
    let length = text.len();
    let Some(written) = buffer.get_mut(..length) else {
        return Tidied {
            code: TABLE_BUFFER_TOO_SHORT,
            line: 0,
            length,
        };
    };
    write(text, &records, written);
    Tidied {
        code: 0,
        line: 0,
        length,
    }
}

fn read(text: &[u8], records: &mut Records) -> Result<usize, Refusal> {
    let mut line_of = [0_u16; NUMBERS];
    read_lines(text, &mut line_of, |line, above, good| {
        records[usize::from(line)] = Record {
            number: good.number,
            parent: good.parent,
            above,
            content: good.content as u16,
            length: (good.next - good.content) as u16,
            ..Record::default()
        };
        hang(records, above, line);
    })
}

/// The line's record becomes the last child of the one above.
#[inline(always)]
fn hang(records: &mut Records, above: u16, line: u16) {
    let above = &mut records[usize::from(above)];
    let before = above.last_child;
    above.last_child = line;
    if before == 0 {
        above.first_child = line;
    } else {
        records[usize::from(before)].next_sibling = line;
    }
}

fn write(text: &[u8], records: &Records, written: &mut [u8]) {
    let mut place = 0;
    let mut line = records[0].first_child;
    while line != 0 {
        let record = &records[usize::from(line)];
        place = write_record(text, record, written, place);
        line = match record.first_child {
            0 => after_all_below(records, line),
            child => child,
        };
    }
}

/// The next sibling of the record, or of the nearest above that has one.
#[inline(always)]
fn after_all_below(records: &Records, mut line: u16) -> u16 {
    while line != 0 {
        let record = &records[usize::from(line)];
        if record.next_sibling != 0 {
            return record.next_sibling;
        }
        line = record.above;
    }
    0
}

/// The place after what was written.
#[inline(always)]
fn write_record(text: &[u8], record: &Record, written: &mut [u8], place: usize) -> usize {
    let parent_place = write_decimal(record.number, written, place);
    let content_place = write_decimal(record.parent, written, parent_place);
    let content = usize::from(record.content);
    let length = usize::from(record.length);
    let content = &text[content..content + length];
    written[content_place..content_place + length].copy_from_slice(content);
    content_place + length
}
