//! What the calls cost in safe Rust written for speed: one pass over the
//! bytes, eight at a time, one look-up for each number and parent, no heap.

mod decimal;
mod edits;
mod line;
mod links;
mod merge;
mod reading;
mod tidy;
mod walk;

pub use merge::merge;
pub use tidy::tidy;

use line::{code_of_line, good_line};
use second::{Checked, MOST_BYTES, MOST_LINES};

const LF: u8 = 10;
const NUMBERS: usize = 65_536;

pub fn check(text: &[u8]) -> Checked {
    if text.len() > MOST_BYTES {
        return refused(1, 0);
    }
    match text.last() {
        None => Checked::default(),
        Some(&LF) => check_lines(text),
        Some(_) => refused(2, unended_line(text)),
    }
}

/// The text's last byte is LF.
fn check_lines(text: &[u8]) -> Checked {
    // By number; 0 for one not met, and for the top. Holding depths rather than
    // lines saves a second look-up.
    let mut depth_of = [0_u16; NUMBERS];
    let mut count = 0;
    let mut greatest = 0;
    let mut place = 0;
    while place < text.len() {
        let line = count as u32 + 1;
        if count == MOST_LINES {
            return refused(3, line);
        }
        let Some(good) = good_line(text, place) else {
            return refused(code_of_line(&text[place..]), line);
        };
        if depth_of[usize::from(good.number)] != 0 {
            return refused(9, line);
        }
        let above = depth_of[usize::from(good.parent)];
        if above == 0 && good.parent != 0 {
            return refused(10, line);
        }
        depth_of[usize::from(good.number)] = above + 1;
        greatest = greatest.max(above + 1);
        count += 1;
        place = good.next;
    }
    Checked {
        code: 0,
        line: 0,
        count,
        depth: usize::from(greatest),
    }
}

#[cold]
fn unended_line(text: &[u8]) -> u32 {
    text.iter().filter(|&&byte| byte == LF).count() as u32 + 1
}

#[cold]
fn refused(code: u32, line: u32) -> Checked {
    Checked {
        code,
        line,
        count: 0,
        depth: 0,
    }
}

#[cfg(test)]
mod tests {
    use super::{check, tidy};
    use crate::tables::{BYTES_A_LINE, SHAPES, SIZES};

    pub struct Random(pub u64);

    impl Random {
        pub fn below(&mut self, bound: usize) -> usize {
            self.0 ^= self.0 << 13;
            self.0 ^= self.0 >> 7;
            self.0 ^= self.0 << 17;
            (self.0 >> 11) as usize % bound
        }
    }

    #[track_caller]
    fn same(text: &[u8]) {
        assert_eq!(check(text), second::check(text), "{}", text.escape_ascii());
        for room in [text.len().saturating_sub(1), text.len(), text.len() + 9] {
            same_tidied(text, room);
        }
    }

    #[track_caller]
    fn same_tidied(text: &[u8], room: usize) {
        let second = second::tidy(text, room);
        let mut wanted = vec![b'.'; room];
        wanted[..second.bytes.len()].copy_from_slice(&second.bytes);
        let mut buffer = vec![b'.'; room];
        let tidied = tidy(text, &mut buffer);
        assert_eq!(
            (tidied.code, tidied.line, tidied.length),
            (second.code, second.line, second.length),
            "{}",
            text.escape_ascii()
        );
        assert!(buffer == wanted, "{}", text.escape_ascii());
    }

    #[test]
    fn full_tables() {
        for shape in &SHAPES {
            for count in SIZES.into_iter().chain([1, 2, 511]) {
                let text = (shape.table)(count).text;
                assert_eq!(check(&text).code, 0);
                same(&text);
            }
        }
    }

    #[test]
    fn damaged_tables() {
        let mut random = Random(1);
        let mut met = [0; 11];
        for turn in 0..60_000 {
            let shape = &SHAPES[turn % SHAPES.len()];
            let mut text = (shape.table)(1 + turn % 5).text;
            for _ in 0..=random.below(3) {
                let place = random.below(text.len());
                let byte = b"\t\n0123456789 x~\0\x1f\x7f\x80\xff"[random.below(20)];
                match random.below(4) {
                    0 => text[place] = byte,
                    1 => text.insert(place, byte),
                    2 => drop(text.remove(place)),
                    // The first line again, unless its length was changed.
                    _ => text.extend_from_within(..BYTES_A_LINE.min(text.len())),
                }
            }
            same(&text);
            met[check(&text).code as usize] += 1;
        }
        assert!(met[4..].iter().all(|&times| times > 100), "{met:?}");
    }

    #[test]
    fn small_alphabet() {
        let mut random = Random(2);
        for _ in 0..200_000 {
            let length = random.below(24);
            let mut text: Vec<u8> = b"1\t0\t"[..random.below(5)].to_vec();
            text.extend((0..length).map(|_| b"\t\t\n01269x\x80"[random.below(10)]));
            text.push(b'\n');
            same(&text);
        }
    }

    #[test]
    fn limits() {
        same(b"");
        same(b"\n");
        same(b"x");
        same(&[b'\n'; 32_768]);
        same(&[b'x'; 32_768]);
        same(&[b'\n'; 32_769]);
        for length in 0..260 {
            let mut text = b"1\t0\t".to_vec();
            text.resize(4 + length, b'x');
            text.push(b'\n');
            same(&text);
            text.extend(b"2\t1\tx\n");
            same(&text);
            text[4 + length / 2] = b'\t';
            same(&text);
        }
        for number in [
            1, 9, 10, 99, 100, 101, 999, 1_000, 9_999, 10_000, 10_001, 65_535, 65_536, 99_999,
            100_000,
        ] {
            same(format!("{number}\t0\tx\n1\t{number}\tx\n").as_bytes());
            same(format!("{number}\t0\tx\n2\t0\ty\n3\t{number}\tz\n").as_bytes());
            same(format!("1\t{number}\tx\n").as_bytes());
            same(format!("0{number}\t0\tx\n").as_bytes());
        }
        let lines = |count: usize| -> Vec<u8> {
            (1..=count)
                .flat_map(|n| format!("{n}\t0\tx\n").into_bytes())
                .collect()
        };
        same(&lines(512));
        same(&lines(513));
        same(&[&lines(512)[..], b"\0\n"].concat());
        same(&[&lines(512)[..], b"1"].concat());
    }
}
