//! The stack that the documents tell callers to have: each call on the tables that take most of
//! it, full and each record below the last, in a thread with that much and a little for the
//! thread itself. A call that needs more ends the process, and so this test.

use std::fmt::Write;
use std::thread;

const ONE_TABLE: usize = 170_000;
const TIDY: usize = 310_000;
const MERGE: usize = 800_000;

/// What a thread takes before it makes the call: its start, the closure and the wrapper.
const THREAD: usize = 24_000;

const RECORDS: u32 = 512;

/// A chain of records, the deepest table there is.
fn chain(content: &str) -> Vec<u8> {
    let mut text = String::new();
    for number in 1..=RECORDS {
        writeln!(text, "{number}\t{}\t{content}", number - 1).expect("a string takes any text");
    }
    text.into_bytes()
}

/// A desk's copy of the table: one line is another.
fn edited(table: &[u8], line: &str, by: &str) -> Vec<u8> {
    let text = String::from_utf8(table.to_vec()).expect("the table is ASCII");
    assert!(text.contains(line), "{line:?} is in the table");
    text.replace(line, by).into_bytes()
}

fn with_stack<T: Send + 'static>(bytes: usize, call: impl FnOnce() -> T + Send + 'static) -> T {
    thread::Builder::new()
        .stack_size(bytes + THREAD)
        .spawn(call)
        .expect("a thread can be started")
        .join()
        .expect("the call answers")
}

#[test]
fn check_and_content_take_no_more_than_is_told() {
    let text = chain("hold");
    let deepest = with_stack(ONE_TABLE, move || {
        (
            bridge::check(&text).depth,
            bridge::content(&text, RECORDS).len(),
        )
    });
    assert_eq!(deepest, (RECORDS as usize, 4));
}

#[test]
fn tidy_takes_no_more_than_is_told() {
    let text = chain("hold");
    let mut buffer = vec![0; text.len()];
    let code = with_stack(TIDY, move || bridge::tidy(&text, &mut buffer).code);
    assert_eq!(code, 0);
}

#[test]
fn merge_takes_no_more_than_is_told() {
    let old = chain("hold\tturn=L");
    let first = edited(&old, "\n3\t2\thold\tturn=L\n", "\n3\t2\thold\tturn=R\n");
    let second = edited(&old, "\n512\t511\thold\tturn=L\n", "\n512\t511\tnote\n");
    let (mut table, mut ledger) = (vec![0; 32_768], vec![0; 8_192]);
    let code = with_stack(MERGE, move || {
        bridge::merge(&old, &first, &second, &mut table, &mut ledger).code
    });
    assert_eq!(code, 0);
}
