//! The limits of the merged table, and of numbers.

use crate::{call, filled, refuses, Texts};
use second::Merged;

/// Two parents, the first with the numbers 3 to `3 + first - 1`, the second with
/// `second` numbers from 10,000 on. The contents are of so many bytes.
fn families(first: u32, second: u32, bytes: usize) -> String {
    let content = "x".repeat(bytes);
    let mut lines = "1\t0\ta\n2\t0\tb\n".to_string();
    for number in 3..3 + first {
        lines += &format!("{number}\t1\t{content}\n");
    }
    for number in 10_000..10_000 + second {
        lines += &format!("{number}\t2\t{content}\n");
    }
    lines
}

/// The lines of `families` are in written order but for record 2.
fn written(families: &str) -> String {
    let (second, others): (Vec<_>, Vec<_>) = families
        .split_inclusive('\n')
        .partition(|line| line.starts_with("2\t0\t") || line.contains("\t2\t"));
    others.concat() + &second.concat()
}

#[track_caller]
fn just_fits(texts: Texts, table: &str) {
    let (merged, buffer, _) = call(texts, [32_768, 8_192]);
    assert_eq!((merged.code, merged.place), (0, 0));
    assert_eq!(merged.table_length, table.len());
    assert!(buffer == filled(table, 32_768));
}

#[test]
fn records() {
    let old = families(0, 0, 1);
    let (first, second) = (families(255, 0, 1), families(0, 255, 1));
    just_fits([&old, &first, &second], &written(&families(255, 255, 1)));
    let more = families(0, 256, 1);
    refuses([&old, &first, &more], 26, 0, 0);
    refuses([&old, &more, &first], 26, 0, 0);
    // As many as there can be.
    let (first, second) = (families(510, 0, 1), families(0, 510, 1));
    refuses([&old, &first, &second], 26, 0, 0);
}

/// 122 bytes are left for the last line.
#[test]
fn bytes() {
    let old = "1\t0\ta\n2\t0\tb\n".to_string();
    let line = |number: u32, parent: u32, bytes: usize| {
        let start = format!("{number}\t{parent}\t");
        let content = "x".repeat(bytes - start.len() - 1);
        start + &content + "\n"
    };
    let under_one: String = (1_000..1_128).map(|n| line(n, 1, 126)).collect();
    let under_two: String = (2_000..2_131).map(|n| line(n, 2, 126)).collect();
    assert_eq!(old.len() + under_one.len() + under_two.len(), 32_646);
    for (last, fits) in [(121, true), (122, true), (123, false)] {
        let first = old.clone() + &under_one;
        let second = old.clone() + &under_two + &line(9_999, 2, last);
        let table = format!(
            "1\t0\ta\n{under_one}2\t0\tb\n{under_two}{}",
            line(9_999, 2, last)
        );
        if fits {
            assert_eq!(table.len(), 32_646 + last);
            just_fits([&old, &first, &second], &table);
        } else {
            refuses([&old, &first, &second], 26, 0, 0);
        }
    }
}

#[test]
fn greatest_numbers() {
    let old = "65535\t0\ta\n";
    let first = "65535\t0\ta\n1\t65535\tb\n";
    let second = "65535\t0\ta\n65534\t0\tc\n";
    let (merged, table, ledger) = call([old, first, second], [100, 100]);
    let wanted = "65535\t0\ta\n1\t65535\tb\n65534\t0\tc\n";
    assert_eq!(table, filled(wanted, 100));
    let wanted_ledger = "65535\t0\t1\n1\t1\t1\n65534\t2\t1\ntotal\t3\t3\n";
    assert_eq!(ledger, filled(wanted_ledger, 100));
    let answer = Merged {
        table_length: wanted.len(),
        ledger_length: wanted_ledger.len(),
        ..Merged::default()
    };
    assert_eq!(merged, answer);
    refuses([old, "65536\t0\ta\n", second], 6, 2, 1);
}

#[test]
fn contents_of_120_and_121_bytes() {
    let long = format!("1\t0\t{}\n", "y".repeat(120));
    just_fits(["1\t0\tx\n", &long, "1\t0\tx\n"], &long);
    let too_long = format!("1\t0\t{}\n", "y".repeat(121));
    refuses(["1\t0\tx\n", "1\t0\tx\n", &too_long], 8, 3, 1);
}

/// 26 is told before there is a word of room, and after every clash.
#[test]
fn order_of_26() {
    let old = families(0, 0, 1);
    let first = families(400, 0, 1);
    let second = families(0, 400, 1).replace("1\t0\ta\n", "1\t0\tnew\n");
    refuses([&old, &first, &second], 26, 0, 0);
    let other = first.replace("1\t0\ta\n", "1\t0\tnewer\n");
    refuses([&old, &other, &second], 21, 0, 1);
}
