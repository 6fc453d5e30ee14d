//! The ledger: for each merged record where its content came from.

use crate::table::{Record, Table};

/// The records are those of the merged tree in written order.
pub fn ledger(merged: &[Record], old: &Table, branches: &[Table]) -> Vec<u8> {
    let mut lines = String::new();
    let mut bytes = 0;
    for record in merged {
        let (number, length) = (record.number, record.content.len());
        let origin = origin(record, old, branches);
        lines += &format!("{number}\t{origin}\t{length}\n");
        bytes += length;
    }
    lines += &format!("total\t{}\t{bytes}\n", merged.len());
    lines.into_bytes()
}

/// 0 if old holds the content. Otherwise 1 if only first holds it, 2 if only
/// second, 3 if both: the sum of the numbers of the branches that do.
fn origin(record: &Record, old: &Table, branches: &[Table]) -> usize {
    if holds(old, record) {
        return 0;
    }
    let numbered = (1..).zip(branches);
    numbered
        .filter(|(_, branch)| holds(branch, record))
        .map(|(number, _)| number)
        .sum()
}

/// Whether the table has this content under this number.
fn holds(table: &Table, record: &Record) -> bool {
    table
        .record(record.number)
        .is_some_and(|held| held.content == record.content)
}
