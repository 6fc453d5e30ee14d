//! Raw random bytes of various lengths and alphabets.

use crate::case::Case;
use crate::random::Random;

pub fn draw(random: &mut Random) -> Case {
    let length = draw_length(random);
    let alphabet = draw_alphabet(random);
    let mut text: Vec<u8> = match alphabet {
        None => (0..length).map(|_| random.byte()).collect(),
        Some(alphabet) => (0..length).map(|_| random.pick(alphabet)).collect(),
    };
    // Unended texts are refused unread, so most are ended.
    if let Some(last) = text.last_mut() {
        if !random.one_in(8) {
            *last = b'\n';
        }
    }
    if random.one_in(2) {
        text = [b"1\t0\t", &text[..]].concat();
    }
    Case::unknown(text)
}

fn draw_length(random: &mut Random) -> usize {
    match random.below(200) {
        0..=99 => random.below(16),
        100..=179 => random.below(200),
        180..=197 => random.below(2_000),
        198 => random.below(32_769),
        _ => random.between(32_760, 40_000),
    }
}

/// None for all bytes. What stands more than once is drawn more often.
fn draw_alphabet(random: &mut Random) -> Option<&'static [u8]> {
    random.pick(&[
        None,
        Some(b"\n"),
        Some(b"\t\n"),
        Some(b"1\t\n"),
        Some(b"01\t\t\n"),
        Some(b"12345\t\t0\nx"),
        Some(b"1234\t\t\t\t0000\nab"),
        Some(b"0123456789\t\t\t\t\n\nABCabc"),
        Some(b"1\t0\tx\n\r\0\x7f\x80\xff ~"),
        Some(b"abcdefghijklmnopqrstuvwxyz\t "),
    ])
}
