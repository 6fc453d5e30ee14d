//! Ways to make a line of a good table faulty, by the code that is then due.

use crate::lines::Line;

/// A fault to bring about: the code (4 to 10) and which of the ways to it.
#[derive(Clone, Copy)]
pub struct Fault {
    pub code: u32,
    pub way: usize,
}

/// What a fault can use of the good table about the line.
struct Around {
    /// Numbers on earlier lines, in line order.
    earlier: Vec<Vec<u8>>,
    /// The line's own number.
    own: Vec<u8>,
    /// The number on the next line.
    next: Option<Vec<u8>>,
}

type Spoil = Box<dyn Fn(&mut Line)>;

/// How many ways are known here to give the line at `at` the code. None for
/// code 9 on the first line, which has no earlier one.
pub fn ways_count(lines: &[Line], at: usize, code: u32) -> usize {
    ways(code, &around(lines, at)).len()
}

/// The good table with these faults on the line at `at`, brought about in turn.
/// Children of a number that goes this way go to the top, so that no other line
/// becomes faulty.
pub fn spoilt(lines: &[Line], at: usize, faults: &[Fault]) -> Vec<Line> {
    let around = around(lines, at);
    let mut lines = lines.to_vec();
    for fault in faults {
        ways(fault.code, &around)[fault.way](&mut lines[at]);
    }
    if lines[at].number != around.own {
        free_children(&mut lines[at + 1..], &around.own);
    }
    lines
}

fn free_children(lines: &mut [Line], parent: &[u8]) {
    for line in lines {
        if line.parent == parent {
            line.parent = b"0".to_vec();
        }
    }
}

fn around(lines: &[Line], at: usize) -> Around {
    Around {
        earlier: lines[..at].iter().map(|line| line.number.clone()).collect(),
        own: lines[at].number.clone(),
        next: lines.get(at + 1).map(|line| line.number.clone()),
    }
}

fn ways(code: u32, around: &Around) -> Vec<Spoil> {
    match code {
        4 => bad_bytes(),
        5 => too_few_tabs(),
        6 => bad_numbers(around),
        7 => bad_parents(around),
        8 => bad_contents(),
        9 => numbers_twice(around),
        10 => absent_parents(around),
        _ => unreachable!("code {code} is not given for what stands on one line"),
    }
}

/// Neither 9 nor 32 to 126. LF is left out, since it would end the line.
pub fn is_bad_byte(byte: u8) -> bool {
    !matches!(byte, 9 | 10 | 32..=126)
}

fn bad_bytes() -> Vec<Spoil> {
    let mut ways: Vec<Spoil> = Vec::new();
    for byte in (0..=255).filter(|&byte| is_bad_byte(byte)) {
        ways.push(Box::new(move |line| line.content.push(byte)));
        ways.push(Box::new(move |line| line.content.insert(0, byte)));
        ways.push(Box::new(move |line| line.number.push(byte)));
        ways.push(Box::new(move |line| line.parent.insert(0, byte)));
    }
    ways
}

fn too_few_tabs() -> Vec<Spoil> {
    fn part(line: &mut Line, parting: [&str; 2]) {
        line.parting = parting.map(|bytes| bytes.as_bytes().to_vec());
        // A content with tabs would bring the missing ones.
        line.content.retain(|&byte| byte != b'\t');
    }
    fn empty(line: &mut Line, parting: [&str; 2]) {
        line.number.clear();
        line.parent.clear();
        line.content.clear();
        part(line, parting);
    }
    vec![
        Box::new(|line| part(line, ["\t", ""])),
        Box::new(|line| part(line, ["", "\t"])),
        Box::new(|line| part(line, ["\t", " "])),
        Box::new(|line| part(line, [" ", "\t"])),
        Box::new(|line| part(line, [" ", " "])),
        Box::new(|line| part(line, ["", ""])),
        Box::new(|line| empty(line, ["", ""])),
        Box::new(|line| empty(line, ["\t", ""])),
        Box::new(|line| empty(line, [" ", ""])),
    ]
}

/// Not a decimal, or with a leading zero, or with a value that would be
/// `wraps_to` in 16, 32 or 64 bits.
fn malformed(wraps_to: &[u8]) -> Vec<Vec<u8>> {
    let value: u128 = std::str::from_utf8(wraps_to).unwrap().parse().unwrap();
    let mut all: Vec<Vec<u8>> = [
        "", "00", "01", "000", "-1", "+1", "-0", " 1", "1 ", "1a", "a1", "a", "1.0", "0x1", "1e3",
        "/", ":", "1/", "1:", "/1", ":1", "0 ", " ", "65536", "65537", "65545", "65600", "70000",
        "99999", "100000", "655350", "655360", "1234567",
    ]
    .iter()
    .map(|digits| digits.as_bytes().to_vec())
    .collect();
    all.push([b"0", wraps_to].concat());
    all.push([b"00000", wraps_to].concat());
    for bits in [16, 32, 64] {
        all.push(((1u128 << bits) + value).to_string().into_bytes());
    }
    for length in [9, 10, 11, 19, 20, 21, 39, 40, 300] {
        all.push(vec![b'1'; length]);
        all.push(vec![b'9'; length]);
    }
    all.push([&[b'0'; 60], wraps_to].concat());
    all
}

fn bad_numbers(around: &Around) -> Vec<Spoil> {
    let mut numbers = malformed(&around.own);
    numbers.push(b"0".to_vec());
    // The nearest to codes 6 and 9 on one line.
    if let Some(earlier) = around.earlier.last() {
        numbers.extend(malformed(earlier));
    }
    numbers
        .into_iter()
        .map(|number| -> Spoil { Box::new(move |line| line.number = number.clone()) })
        .collect()
}

fn bad_parents(around: &Around) -> Vec<Spoil> {
    let mut parents = malformed(b"0");
    if let Some(earlier) = around.earlier.last() {
        parents.extend(malformed(earlier));
    }
    parents
        .into_iter()
        .map(|parent| -> Spoil { Box::new(move |line| line.parent = parent.clone()) })
        .collect()
}

fn bad_contents() -> Vec<Spoil> {
    let mut contents: Vec<Vec<u8>> = ["", "\t", "\t\t", "\tx", "x\t", "x\t\ty", "a\tb\t", "\t \t"]
        .iter()
        .map(|content| content.as_bytes().to_vec())
        .collect();
    for length in [121, 122, 128, 255, 256, 257, 376, 1_000] {
        contents.push(vec![b'x'; length]);
        contents.push([b"kind\tf=1\t", &vec![b'y'; length - 9][..]].concat());
    }
    contents.push([&[b'x'; 119][..], b"\t"].concat());
    contents.push([&[b'x'; 120][..], b"\t"].concat());
    contents.push([b"\t", &[b'x'; 119][..]].concat());
    contents.push([b"\t", &[b'x'; 120][..]].concat());
    contents
        .into_iter()
        .map(|content| -> Spoil { Box::new(move |line| line.content = content.clone()) })
        .collect()
}

fn numbers_twice(around: &Around) -> Vec<Spoil> {
    let earlier = &around.earlier;
    if earlier.is_empty() {
        return Vec::new();
    }
    [0, earlier.len() / 2, earlier.len() - 1]
        .into_iter()
        .map(|place| -> Spoil {
            let number = earlier[place].clone();
            Box::new(move |line| line.number = number.clone())
        })
        .collect()
}

fn absent_parents(around: &Around) -> Vec<Spoil> {
    let mut parents = vec![around.own.clone()];
    parents.extend(around.next.clone());
    let stands = |number: &Vec<u8>| around.earlier.contains(number);
    for absent in ["65535", "65534", "60000", "50000", "40000"] {
        let absent = absent.as_bytes().to_vec();
        if !stands(&absent) {
            parents.push(absent);
        }
    }
    parents
        .into_iter()
        .map(|parent| -> Spoil { Box::new(move |line| line.parent = parent.clone()) })
        .collect()
}
