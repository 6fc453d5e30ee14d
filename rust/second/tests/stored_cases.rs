//! The cases that the proved programs `cases_check`, `cases_tidy` and
//! `cases_merge` are run on, answered by the second program: it must write the
//! same stored bytes.

use second::{Merged, Tidied};
use std::path::PathBuf;

/// Ends a part of a case; no part has it.
const END_OF_PART: u8 = 255;

/// Whose contents `cases_check` asks for.
const ASKED: [u32; 3] = [1, 65_535, 65_536];

/// How many bytes each buffer of `cases_tidy` and `cases_merge` has.
const ROOM: usize = 32_776;

/// Each byte of such a buffer before it is lent.
const FILLER: u8 = b'.';

/// So many bytes past the length are shown.
const SHOWN_PAST: usize = 2;

fn stored(program: &str, name: &str) -> Vec<u8> {
    let crates = PathBuf::from(env!("CARGO_MANIFEST_DIR")).join("../../crates");
    std::fs::read(crates.join(program).join(name)).expect("the stored cases are in the repository")
}

/// What the second program answers to all cases of a program, each of so many
/// parts.
fn written<const PARTS: usize>(program: &str, answers: fn([&[u8]; PARTS]) -> Vec<u8>) -> Vec<u8> {
    let cases = stored(program, "stdin");
    let ended = cases
        .strip_suffix(&[END_OF_PART])
        .expect("the last part is ended");
    let parts: Vec<&[u8]> = ended.split(|&byte| byte == END_OF_PART).collect();
    parts
        .chunks(PARTS)
        .map(|case| case.try_into().expect("each case has all its parts"))
        .flat_map(answers)
        .collect()
}

fn check_answers([text]: [&[u8]; 1]) -> Vec<u8> {
    let checked = second::check(text);
    let mut answers = format!(
        "{}\t{}\t{}\t{}\n",
        checked.code, checked.line, checked.count, checked.depth
    )
    .into_bytes();
    for number in ASKED {
        answers.extend(second::content(text, number));
        answers.push(b'\n');
    }
    answers
}

/// A call that is lent the first `room` bytes of a buffer: what it answers, and
/// the whole buffer afterwards.
fn tidied(text: &[u8], room: usize) -> (Tidied, Vec<u8>) {
    let tidied = second::tidy(text, room);
    let mut buffer = vec![FILLER; ROOM];
    buffer[..tidied.bytes.len()].copy_from_slice(&tidied.bytes);
    (tidied, buffer)
}

/// How many bytes of a buffer are not as expected.
fn differing(buffer: &[u8], expected: &[u8]) -> usize {
    let pairs = buffer.iter().zip(expected);
    pairs.filter(|(byte, other)| byte != other).count()
}

/// The line of one call of tidy: its three numbers, and how many bytes of the
/// buffer are not as expected.
fn told((tidied, buffer): &(Tidied, Vec<u8>), expected: &[u8]) -> Vec<u8> {
    let differing = differing(buffer, expected);
    let Tidied {
        code, line, length, ..
    } = tidied;
    format!("{code}\t{line}\t{length}\t{differing}\n").into_bytes()
}

/// The bytes written to a buffer, and some past them.
fn shown(buffer: &[u8], length: usize) -> Vec<u8> {
    [&buffer[..length + SHOWN_PAST], b"\n"].concat()
}

fn tidy_answers([text]: [&[u8]; 1]) -> Vec<u8> {
    let filled = [FILLER; ROOM];
    let long = tidied(text, ROOM);
    let (Tidied { length, .. }, ref buffer) = long;
    let mut answers = told(&long, &filled);
    answers.extend(shown(buffer, length));
    answers.extend(told(&tidied(text, length), buffer));
    if length > 0 {
        answers.extend(told(&tidied(text, length - 1), &filled));
    }
    answers
}

/// A call of merge that is lent the start of each buffer: what it answers, and
/// both whole buffers afterwards.
struct MergeCall {
    merged: Merged,
    buffers: [Vec<u8>; 2],
}

impl MergeCall {
    fn new([old, first, second]: [&[u8]; 3], [table_room, ledger_room]: [usize; 2]) -> MergeCall {
        let mut buffers = [vec![FILLER; ROOM], vec![FILLER; ROOM]];
        let [table, ledger] = &mut buffers;
        let (table, ledger) = (&mut table[..table_room], &mut ledger[..ledger_room]);
        let merged = second::merge(old, first, second, table, ledger);
        MergeCall { merged, buffers }
    }

    /// The line of the call: its five numbers, and for each buffer how many bytes
    /// are not as expected.
    fn told(&self, expected: [&[u8]; 2]) -> Vec<u8> {
        let Merged {
            code,
            table,
            place,
            table_length,
            ledger_length,
        } = self.merged;
        let [in_table, in_ledger] = [0, 1].map(|at| differing(&self.buffers[at], expected[at]));
        let lengths = format!("{table_length}\t{ledger_length}");
        format!("{code}\t{table}\t{place}\t{lengths}\t{in_table}\t{in_ledger}\n").into_bytes()
    }
}

fn merge_answers([name, old, first, second]: [&[u8]; 4]) -> Vec<u8> {
    let texts = [old, first, second];
    let filled: [&[u8]; 2] = [&[FILLER; ROOM]; 2];
    let long = MergeCall::new(texts, [ROOM; 2]);
    let (merged, buffers) = (long.merged, long.buffers.each_ref().map(Vec::as_slice));
    let lengths = [merged.table_length, merged.ledger_length];
    let mut answers = [name, &long.told(filled)].concat();
    if merged.code == 0 {
        answers.extend(shown(buffers[0], lengths[0]));
        answers.extend(shown(buffers[1], lengths[1]));
    }
    answers.extend(MergeCall::new(texts, lengths).told(buffers));
    if merged.code == 0 {
        for rooms in short(lengths) {
            answers.extend(MergeCall::new(texts, rooms).told(filled));
        }
    }
    answers
}

/// The rooms that lack a byte: for the table, for both and for the ledger.
/// Nothing is shorter than an empty table.
fn short([table, ledger]: [usize; 2]) -> Vec<[usize; 2]> {
    match table {
        0 => vec![[0, ledger - 1]],
        _ => vec![
            [table - 1, ledger],
            [table - 1, ledger - 1],
            [table, ledger - 1],
        ],
    }
}

#[test]
fn check_and_content_have_the_stored_answers() {
    assert!(written("cases_check", check_answers) == stored("cases_check", "stdout"));
}

#[test]
fn tidy_has_the_stored_answers() {
    assert!(written("cases_tidy", tidy_answers) == stored("cases_tidy", "stdout"));
}

#[test]
fn merge_has_the_stored_answers() {
    assert!(written("cases_merge", merge_answers) == stored("cases_merge", "stdout"));
}
