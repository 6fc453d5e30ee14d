//! The written form: a record first, then its children in order, each with all
//! below it.

use crate::table::{Record, TOP};
use std::collections::BTreeMap;

/// For each parent its children in order.
type Children<'a, 't> = BTreeMap<u32, Vec<&'a Record<'t>>>;

/// Of a table, or of any records of which each list stands in its order.
pub fn written_form(records: &[Record]) -> Vec<u8> {
    let mut children = Children::new();
    for record in records {
        children.entry(record.parent).or_default().push(record);
    }
    let mut bytes = Vec::new();
    write_list(TOP, &children, &mut bytes);
    bytes
}

fn write_list(parent: u32, children: &Children, bytes: &mut Vec<u8>) {
    for record in children.get(&parent).into_iter().flatten() {
        write_line(record, bytes);
        write_list(record.number, children, bytes);
    }
}

fn write_line(record: &Record, bytes: &mut Vec<u8>) {
    bytes.extend(format!("{}\t{}\t", record.number, record.parent).bytes());
    bytes.extend(record.content);
    bytes.push(b'\n');
}
