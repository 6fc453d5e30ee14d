//! Wrong calls in the place of the library's: each is found, and in a small
//! triple.

use crate::report::Difference;
use crate::run::{Limit, Run};
use bridge::{Checked, Merged, Part, Tidied};
use compare::calls::{Calls, Library};
use compare::met::OfCall;

const SEED: u64 = 2004;
const ROUNDS: u64 = 2_000;

#[test]
fn the_library_is_as_the_second_program() {
    let mut run = Run::new(&Library, SEED);
    let difference = run.go(Limit::Rounds(ROUNDS), |_| ());
    assert!(difference.is_none(), "{difference:?}");
    let so_far = run.so_far();
    assert!(so_far.starts_with("2000 triples, "), "{so_far}");
    assert!(run.met.of_each_call().iter().all(OfCall::was_made));
}

#[test]
fn a_seed_gives_the_same_run() {
    let told = |seed| {
        let mut run = Run::new(&Library, seed);
        run.go(Limit::Rounds(300), |_| ());
        let codes = run.met.of_each_call().map(|of_call| of_call.listed());
        (run.so_far(), codes)
    };
    assert_eq!(told(1), told(1));
    assert_ne!(told(1), told(2));
}

/// The difference is found, and is left with at most so many lines.
fn finds(calls: &dyn Calls, most_lines: usize) -> Difference {
    let mut run = Run::new(calls, SEED);
    let difference = run.go(Limit::Rounds(ROUNDS), |_| ());
    let difference = difference.expect("a difference");
    let lines = difference
        .texts
        .concat()
        .split(|&byte| byte == b'\n')
        .count()
        - 1;
    assert!(lines <= most_lines, "{}", difference.shown(calls));
    difference
}

/// Marks first's contents as second's and second's as first's.
struct OriginsTraded;

impl Calls for OriginsTraded {
    fn merge(&self, texts: [&[u8]; 3], table: &mut [u8], ledger: &mut [u8]) -> Merged {
        let merged = Library.merge(texts, table, ledger);
        if merged.code == 0 {
            let mut field = 0;
            for byte in &mut ledger[..merged.ledger_length] {
                match byte {
                    b'\n' => field = 0,
                    b'\t' => field += 1,
                    b'1' if field == 1 => *byte = b'2',
                    b'2' if field == 1 => *byte = b'1',
                    _ => (),
                }
            }
        }
        merged
    }
}

#[test]
fn origins_traded() {
    let difference = finds(&OriginsTraded, 1);
    let shown = difference.shown(&OriginsTraded);
    let [_, first, second] = &difference.texts;
    let inserted = [&first[..], &second[..]].concat();
    let line = format!("b\"{}\"", inserted.escape_ascii());
    assert!(shown.contains(&line), "{shown}");
    assert!(
        shown.contains("merge, proved: Merged { code: 0,"),
        "{shown}"
    );
    assert!(
        shown.contains("merge, second: Merged { code: 0,"),
        "{shown}"
    );
    assert!(shown.contains("ledger: byte "), "{shown}");
}

/// The last content of the merged table loses its last byte.
struct LastByteLost;

impl Calls for LastByteLost {
    fn merge(&self, texts: [&[u8]; 3], table: &mut [u8], ledger: &mut [u8]) -> Merged {
        let mut merged = Library.merge(texts, table, ledger);
        if merged.code == 0 && merged.table_length > 0 {
            merged.table_length -= 1;
            table[merged.table_length - 1] = b'\n';
        }
        merged
    }
}

#[test]
fn last_byte_lost() {
    finds(&LastByteLost, 1);
}

/// Writes one byte past the table if there is room for it.
struct BytePastTheLength;

impl Calls for BytePastTheLength {
    fn merge(&self, texts: [&[u8]; 3], table: &mut [u8], ledger: &mut [u8]) -> Merged {
        let merged = Library.merge(texts, table, ledger);
        if let (0, Some(byte)) = (merged.code, table.get_mut(merged.table_length)) {
            *byte = !*byte;
        }
        merged
    }
}

#[test]
fn byte_past_the_length() {
    finds(&BytePastTheLength, 0);
}

/// Tells a lost edit as a broken list.
struct WrongCode;

impl Calls for WrongCode {
    fn merge(&self, texts: [&[u8]; 3], table: &mut [u8], ledger: &mut [u8]) -> Merged {
        let merged = Library.merge(texts, table, ledger);
        let code = if merged.code == 25 { 24 } else { merged.code };
        Merged { code, ..merged }
    }
}

#[test]
fn wrong_code() {
    // A record of old that one desk deletes, and under which the other inserts.
    finds(&WrongCode, 3);
}

/// Counts a depth of three as two.
struct WrongDepth;

impl Calls for WrongDepth {
    fn check(&self, text: &[u8]) -> Checked {
        let checked = Library.check(text);
        let depth = if checked.depth == 3 { 2 } else { checked.depth };
        Checked { depth, ..checked }
    }
}

#[test]
fn wrong_depth() {
    finds(&WrongDepth, 3);
}

/// Touches the buffer though it is too short.
struct RefusedTidyWrites;

impl Calls for RefusedTidyWrites {
    fn tidy(&self, text: &[u8], buffer: &mut [u8]) -> Tidied {
        let tidied = Library.tidy(text, buffer);
        if let (31, Some(byte)) = (tidied.code, buffer.first_mut()) {
            *byte = !*byte;
        }
        tidied
    }
}

#[test]
fn refused_tidy_writes() {
    finds(&RefusedTidyWrites, 1);
}

/// The fault that shipped: the last byte of a content is not in its part.
struct PartTooShort;

impl Calls for PartTooShort {
    fn content_place(&self, text: &[u8], number: u32) -> Part {
        let part = Library.content_place(text, number);
        let length = part.length.saturating_sub(1);
        Part { length, ..part }
    }
}

#[test]
fn part_too_short() {
    finds(&PartTooShort, 1);
}

#[test]
fn a_difference_is_written_to_a_file() {
    let difference = finds(&LastByteLost, 1);
    let shown = difference.shown(&LastByteLost);
    let directory = std::env::temp_dir().join(format!("fuzz-{}", std::process::id()));
    let path = difference.write(&directory, &shown).expect("written");
    let written = std::fs::read_to_string(path).expect("a text");
    std::fs::remove_dir_all(directory).expect("removed");
    assert_eq!(written, shown);
}
