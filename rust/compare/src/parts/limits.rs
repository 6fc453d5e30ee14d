//! Tables at, just inside and just outside each limit.

use crate::case::Case;
use crate::lines::{chain, lengthen_to, text_of, tops, wide, Line};
use crate::spoil::is_bad_byte;

pub fn cases() -> Vec<Case> {
    [
        tiny(),
        numbers(),
        parents(),
        every_number(),
        contents(),
        content_bytes(),
        line_counts(),
        depths(),
        byte_counts(),
        long_single_lines(),
    ]
    .concat()
}

fn tiny() -> Vec<Case> {
    vec![
        Case::accepted("", 0, 0),
        Case::refused("\n", 5, 1),
        Case::refused("\n\n", 5, 1),
        Case::refused("\t", 2, 1),
        Case::refused("\t\t", 2, 1),
        Case::refused("\t\n", 5, 1),
        Case::refused("\t\t\n", 6, 1),
        Case::refused("\t\t\t\n", 6, 1),
        Case::refused("0\n", 5, 1),
        Case::refused("1\t", 2, 1),
        Case::refused("1\t0", 2, 1),
        Case::refused("1\t0\t", 2, 1),
        Case::refused("1\t0\t\n", 8, 1),
        Case::refused("1\t0\tx", 2, 1),
        Case::accepted("1\t0\tx\n", 1, 1),
        Case::refused("1\t0\tx\n\n", 5, 2),
        Case::refused("\n1\t0\tx\n", 5, 1),
        Case::refused("1\t0\tx\n\n2\t0\tx\n", 5, 2),
        Case::refused("1\t0\tx\r\n", 4, 1),
        Case::refused("1\t0\tx\n\r\n", 4, 2),
        Case::refused("1\t0\tx\r", 2, 1),
        Case::refused("1\t0\tx\n2", 2, 2),
        Case::refused("\0", 2, 1),
        Case::refused("\0\n", 4, 1),
        Case::refused([0xff], 2, 1),
        Case::refused("\u{feff}1\t0\tx\n", 4, 1),
    ]
}

fn numbers() -> Vec<Case> {
    let mut cases = Vec::new();
    for good in EDGES {
        cases.push(Case::accepted(format!("{good}\t0\tx\n"), 1, 1));
        let second_line = format!("7\t0\tx\n{good}\t7\ty\n");
        cases.push(Case::accepted(second_line, 2, 2));
    }
    for bad in BEYOND {
        cases.push(Case::refused(format!("{bad}\t0\tx\n"), 6, 1));
        cases.push(Case::refused(format!("7\t0\tx\n{bad}\t7\ty\n"), 6, 2));
    }
    for bad in ["0", "00"] {
        cases.push(Case::refused(format!("{bad}\t0\tx\n"), 6, 1));
    }
    for zeros in 1..12 {
        let padded = format!("{}\t0\tx\n", "0".repeat(zeros) + "5");
        cases.push(Case::refused(padded, 6, 1));
    }
    for length in LONG {
        for digit in ["0", "1", "6", "9"] {
            let long = format!("{}\t0\tx\n", digit.repeat(length));
            cases.push(Case::refused(long, 6, 1));
        }
    }
    cases
}

fn parents() -> Vec<Case> {
    let mut cases = Vec::new();
    for good in EDGES {
        let below = format!("{good}\t0\tx\n7\t{good}\ty\n");
        cases.push(Case::accepted(below, 2, 2));
        cases.push(Case::refused(format!("7\t{good}\tx\n"), 10, 1));
        cases.push(Case::refused(format!("{good}\t{good}\tx\n"), 10, 1));
        let later = format!("7\t{good}\tx\n{good}\t0\tx\n");
        cases.push(Case::refused(later, 10, 1));
    }
    for bad in BEYOND {
        cases.push(Case::refused(format!("7\t{bad}\tx\n"), 7, 1));
        cases.push(Case::refused(format!("1\t0\tx\n7\t{bad}\ty\n"), 7, 2));
    }
    for zeros in 1..12 {
        let padded = format!("5\t0\tx\n7\t{}\tx\n", "0".repeat(zeros) + "5");
        cases.push(Case::refused(padded, 7, 2));
        let top = format!("7\t{}\tx\n", "0".repeat(zeros) + "0");
        cases.push(Case::refused(top, 7, 1));
    }
    for length in LONG {
        for digit in ["0", "1", "6", "9"] {
            let long = format!("7\t{}\tx\n", digit.repeat(length));
            cases.push(Case::refused(long, 7, 1));
        }
    }
    cases
}

/// Where the count of digits or the size in bits changes; without 7, which the
/// cases use for the other record.
const EDGES: [u32; 21] = [
    1, 2, 8, 9, 10, 11, 99, 100, 127, 128, 255, 256, 257, 999, 1_000, 9_999, 10_000, 32_767,
    32_768, 65_534, 65_535,
];

/// Above 65,535, among them those that wrap to 0, 1 and 7.
const BEYOND: [u128; 16] = [
    65_536,
    65_537,
    65_539,
    65_540,
    65_543,
    66_000,
    70_000,
    99_999,
    100_000,
    131_073,
    4_294_967_296,
    4_294_967_297,
    4_294_967_303,
    18_446_744_073_709_551_616,
    18_446_744_073_709_551_617,
    18_446_744_073_709_551_623,
];

const LONG: [usize; 8] = [6, 10, 11, 20, 21, 40, 1_000, 32_000];

/// Each number from 1 to 65,535 stands in one of these tables.
fn every_number() -> Vec<Case> {
    let all: Vec<u32> = (1..=65_535).collect();
    let mut cases = Vec::new();
    for (place, numbers) in all.chunks(512).enumerate() {
        // In turn upwards and downwards, as a chain and under the first.
        let mut numbers = numbers.to_vec();
        if place % 2 == 1 {
            numbers.reverse();
        }
        let mut lines = vec![Line::new(numbers[0], 0, "x")];
        for pair in numbers.windows(2) {
            let parent = if place % 4 < 2 { pair[0] } else { numbers[0] };
            lines.push(Line::new(pair[1], parent, "x"));
        }
        let depth = if place % 4 < 2 { numbers.len() } else { 2 };
        cases.push(Case::accepted(text_of(&lines), lines.len(), depth));
    }
    cases
}

fn contents() -> Vec<Case> {
    let mut cases = Vec::new();
    for length in (1..=125).chain([127, 128, 129, 240, 241, 255, 256, 257, 511, 512, 513, 4_096]) {
        let plain = vec![b'x'; length];
        // Fields of one byte, then one of two if the length is even.
        let mut fields: Vec<u8> = b"y\t".iter().copied().cycle().take(length).collect();
        fields[length - 1] = b'y';
        for content in [plain, fields] {
            for before in [0, 5] {
                let mut lines = tops(before);
                lines.push(Line::new(60_000, 0, content.clone()));
                lines.push(Line::new(60_001, 60_000, "z"));
                let text = text_of(&lines);
                cases.push(if length <= 120 {
                    Case::accepted(text, before + 2, 2)
                } else {
                    Case::refused(text, 8, before + 1)
                });
            }
        }
    }
    for content in [
        "\t", "\t\t", "\tx", "x\t", "x\t\ty", "x\ty\t", "\tx\ty", " \t\t ",
    ] {
        cases.push(Case::refused(format!("1\t0\t{content}\n"), 8, 1));
    }
    for content in [" ", "  ", " \t ", "~", "0", "1\t0\t1", "1\t0\tx\t2\t0\ty"] {
        cases.push(Case::accepted(format!("1\t0\t{content}\n"), 1, 1));
    }
    cases
}

/// Each byte as a content of its own and within one.
fn content_bytes() -> Vec<Case> {
    let mut cases = Vec::new();
    for byte in 0..=255 {
        let alone = [b"1\t0\t", &[byte][..], b"\n"].concat();
        let within = [b"1\t0\ta", &[byte][..], b"b\n"].concat();
        let (alone, within) = match byte {
            b'\t' => (Case::refused(alone, 8, 1), Case::accepted(within, 1, 1)),
            b'\n' => (Case::refused(alone, 8, 1), Case::refused(within, 5, 2)),
            _ if is_bad_byte(byte) => (Case::refused(alone, 4, 1), Case::refused(within, 4, 1)),
            _ => (Case::accepted(alone, 1, 1), Case::accepted(within, 1, 1)),
        };
        cases.extend([alone, within]);
    }
    cases
}

fn line_counts() -> Vec<Case> {
    let mut cases = Vec::new();
    for count in [1, 2, 255, 256, 257, 510, 511, 512] {
        cases.push(Case::accepted(text_of(&tops(count)), count, 1));
        cases.push(Case::refused(unended(text_of(&tops(count))), 2, count));
    }
    for count in [513, 514, 600, 1_000, 2_000] {
        cases.push(Case::refused(text_of(&tops(count)), 3, 513));
        cases.push(Case::refused(unended(text_of(&tops(count))), 2, count));
    }
    for last in [
        "\n",
        "\0\n",
        "x\n",
        "\t\t\n",
        "600\t600\tx\n",
        "1\t0\tx\n",
        "600\t0\t\n",
    ] {
        let after = [&text_of(&tops(512))[..], last.as_bytes()].concat();
        cases.push(Case::refused(after.clone(), 3, 513));
        cases.push(Case::refused([&after[..], b"x"].concat(), 2, 514));
        let before = [&text_of(&tops(511))[..], last.as_bytes()].concat();
        cases.push(Case::unknown(before));
    }
    for last in ["6", "\t", "\0", "600\t0\tx", "600\t0\t"] {
        let text = [&text_of(&tops(512))[..], last.as_bytes()].concat();
        cases.push(Case::refused(text, 2, 513));
    }
    cases
}

fn depths() -> Vec<Case> {
    let mut cases = Vec::new();
    for count in [2, 3, 100, 255, 256, 257, 511, 512] {
        cases.push(Case::accepted(text_of(&chain(count)), count, count));
        cases.push(Case::accepted(text_of(&wide(count)), count, 2));
    }
    cases.push(Case::refused(text_of(&chain(513)), 3, 513));
    cases.push(Case::refused(text_of(&wide(513)), 3, 513));
    cases
}

fn byte_counts() -> Vec<Case> {
    let mut cases = Vec::new();
    for count in [264, 265, 300, 400, 511, 512] {
        for (lines, depth) in [(tops(count), 1), (chain(count), count), (wide(count), 2)] {
            for bytes in 32_760..=32_768 {
                let text = long_text(&lines, bytes);
                cases.push(Case::refused(unended(text.clone()), 2, count));
                cases.push(Case::refused([&text[..bytes - 1], b"x"].concat(), 2, count));
                cases.push(Case::accepted(text, count, depth));
            }
            for bytes in [32_769, 32_770, 33_000] {
                let text = long_text(&lines, bytes);
                let left = unended(text.clone());
                cases.push(if left.len() > 32_768 {
                    Case::refused(left, 1, 0)
                } else {
                    Case::refused(left, 2, count)
                });
                cases.push(Case::refused(text, 1, 0));
            }
        }
    }
    let full = long_text(&tops(300), 32_768);
    for more in ["\n", "x", "\t", "\0", "400\t0\tx\n"] {
        let text = [&full[..], more.as_bytes()].concat();
        cases.push(Case::refused(text, 1, 0));
    }
    cases.push(Case::refused(long_text(&tops(513), 32_768), 3, 513));
    cases.push(Case::refused(long_text(&tops(513), 32_769), 1, 0));
    cases
}

fn long_text(lines: &[Line], bytes: usize) -> Vec<u8> {
    let mut lines = lines.to_vec();
    lengthen_to(&mut lines, bytes);
    text_of(&lines)
}

fn unended(mut text: Vec<u8>) -> Vec<u8> {
    text.pop();
    text
}

/// The same byte over and over, and single lines as long as a text may be.
fn long_single_lines() -> Vec<Case> {
    let mut cases = Vec::new();
    for length in [32_767, 32_768] {
        cases.push(Case::refused(vec![b'\n'; length], 5, 1));
        for byte in [b'\t', b'x', b'1', b'0', 0, 255] {
            cases.push(Case::refused(vec![byte; length], 2, 1));
        }
        cases.push(Case::refused(ended(vec![0; length - 1]), 4, 1));
        cases.push(Case::refused(ended(vec![b'x'; length - 1]), 5, 1));
        cases.push(Case::refused(ended(vec![b'\t'; length - 1]), 6, 1));
        let digits = [&vec![b'1'; length - 5], &b"\t0\tx\n"[..]].concat();
        cases.push(Case::refused(digits, 6, 1));
        let content = [b"1\t0\t", &vec![b'x'; length - 5][..], b"\n"].concat();
        cases.push(Case::refused(content, 8, 1));
        let mut unended_last = vec![b'\n'; length];
        unended_last[length - 1] = b'x';
        cases.push(Case::refused(unended_last, 2, length));
    }
    for length in [
        32_769, 32_770, 40_000, 65_535, 65_536, 65_537, 100_000, 1_000_000,
    ] {
        for byte in [b'\n', b'\t', b'x', 0] {
            cases.push(Case::refused(vec![byte; length], 1, 0));
        }
        // Good as far as it may be read, were only its low bits looked at.
        let mut text = text_of(&tops(3));
        text.resize(length - 1, b'x');
        cases.push(Case::refused(ended(text), 1, 0));
    }
    cases
}

fn ended(mut text: Vec<u8>) -> Vec<u8> {
    text.push(b'\n');
    text
}
