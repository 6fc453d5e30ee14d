//! One line: a pass over its bytes, eight at a time.

use second::LONGEST_CONTENT;

const TAB: u8 = 9;
const LF: u8 = 10;

pub struct GoodLine {
    pub number: u16,
    pub parent: u16,
    /// Where the content starts.
    pub content: usize,
    /// Where the next line starts.
    pub next: usize,
}

/// None when one of the codes 4 to 8 holds, whichever it is.
#[inline(always)]
pub fn good_line(text: &[u8], start: usize) -> Option<GoodLine> {
    let (number, parent_start) = decimal(text, start)?;
    let (parent, content_start) = decimal(text, parent_start)?;
    let end = content_end(text, content_start)?;
    (number != 0).then_some(GoodLine {
        number,
        parent,
        content: content_start,
        next: end + 1,
    })
}

/// The value of the digits before the next tab, and the place after it.
#[inline(always)]
fn decimal(text: &[u8], start: usize) -> Option<(u16, usize)> {
    let word = word_at(text, start);
    // With no tab in the word this is 8, too many digits.
    let length = (equal(word, TAB).trailing_zeros() / 8) as usize;
    if !(1..=5).contains(&length) || (word as u8 == b'0' && length > 1) {
        return None;
    }
    // Eight digits, the first ones '0'.
    let digits = (word << (64 - 8 * length)) | (every(b'0') >> (8 * length));
    let high = digits & every(0xf0);
    let carried = (digits.wrapping_add(every(6)) & every(0xf0)) >> 4;
    if high | carried != every(0x33) {
        return None;
    }
    let value = eight_digits(digits);
    let value = u16::try_from(value).ok()?;
    Some((value, start + length + 1))
}

/// Neighbouring digits, then pairs, then fours are put together.
#[inline(always)]
fn eight_digits(digits: u64) -> u64 {
    let ones = digits & every(0x0f);
    let pairs = (ones.wrapping_mul(1 + (10 << 8)) >> 8) & 0x00ff_00ff_00ff_00ff;
    let fours = (pairs.wrapping_mul(1 + (100 << 16)) >> 16) & 0x0000_ffff_0000_ffff;
    fours.wrapping_mul(1 + (10_000 << 32)) >> 32
}

/// The place of the LF that ends a good content.
#[inline(always)]
fn content_end(text: &[u8], start: usize) -> Option<usize> {
    let mut place = start;
    // Whether the byte before the word is a tab: the one before the content is.
    let mut after_tab = 0x80;
    while place - start <= LONGEST_CONTENT {
        let word = word_at(text, place);
        let tabs = equal(word, TAB);
        let others = not_printable(word) & !tabs;
        let empty_fields = tabs & (tabs << 8 | after_tab);
        if others | empty_fields != 0 {
            return end_in_word(word, tabs << 8 | after_tab, others | empty_fields)
                .map(|bytes| place + bytes)
                .filter(|end| end - start <= LONGEST_CONTENT);
        }
        after_tab = tabs >> 56;
        place += 8;
    }
    None
}

/// The place of LF in the word, if it is the first byte marked and stands after
/// no tab.
#[inline(always)]
fn end_in_word(word: u64, after_tabs: u64, marked: u64) -> Option<usize> {
    let first = marked & marked.wrapping_neg();
    let good = equal(word, LF) & first & !after_tabs;
    (good != 0).then_some((first.trailing_zeros() / 8) as usize)
}

/// The eight bytes from here, the first lowest. Past the end of the text stands
/// nothing that is read, since a text's last LF stops every reading.
#[inline(always)]
fn word_at(text: &[u8], place: usize) -> u64 {
    match text.get(place..place + 8) {
        Some(bytes) => u64::from_le_bytes(bytes.try_into().expect("eight bytes")),
        None => last_word(text, place),
    }
}

#[cold]
fn last_word(text: &[u8], place: usize) -> u64 {
    let mut bytes = [0; 8];
    let left = text.get(place..).unwrap_or_default();
    bytes[..left.len()].copy_from_slice(left);
    u64::from_le_bytes(bytes)
}

#[inline(always)]
const fn every(byte: u8) -> u64 {
    byte as u64 * 0x0101_0101_0101_0101
}

/// The high bit of each byte that is the one wanted.
#[inline(always)]
fn equal(word: u64, wanted: u8) -> u64 {
    let differing = word ^ every(wanted);
    let low = (differing & every(0x7f)) + every(0x7f);
    !(low | differing) & every(0x80)
}

/// The high bit of each byte that is not 32 to 126.
#[inline(always)]
fn not_printable(word: u64) -> u64 {
    let low = word & every(0x7f);
    let below = !((low | every(0x80)) - every(32));
    let above = low + every(1);
    (below | above | word) & every(0x80)
}

/// The lowest of the codes 4 to 8 that hold for the first line.
#[cold]
pub fn code_of_line(text: &[u8]) -> u32 {
    let line = text.split(|&byte| byte == LF).next().unwrap_or_default();
    let good_byte = |&byte: &u8| byte == TAB || (32..=126).contains(&byte);
    if !line.iter().all(good_byte) {
        return 4;
    }
    let mut parts = line.splitn(3, |&byte| byte == TAB);
    let (Some(number), Some(parent), Some(_)) = (parts.next(), parts.next(), parts.next()) else {
        return 5;
    };
    if !is_decimal(number) || number == b"0" {
        return 6;
    }
    if !is_decimal(parent) {
        return 7;
    }
    8
}

fn is_decimal(digits: &[u8]) -> bool {
    let value = |digits: &[u8]| {
        digits
            .iter()
            .fold(0, |value, digit| value * 10 + u32::from(digit - b'0'))
    };
    (1..=5).contains(&digits.len())
        && digits.iter().all(u8::is_ascii_digit)
        && (digits[0] != b'0' || digits.len() == 1)
        && value(digits) <= 65_535
}
