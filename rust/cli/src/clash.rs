//! What the two writers need to settle a clash: the record, or the parent's list,
//! in all three tables.

use crate::codes;
use crate::lists;
use crate::rows::{rows, Row};

/// A table that was read, under the name that the words give it.
pub struct Named<'a> {
    pub name: String,
    pub text: &'a [u8],
}

/// Says that a clash was met, and shows its place in the tables.
pub fn report(code: u32, place: u32, tables: &[Named]) -> String {
    let read: Vec<Vec<Row>> = tables.iter().map(|table| rows(table.text)).collect();
    let mut told = vec![codes::clash(code, place)];
    // A lost edit may be one of the record or one of its list.
    if matches!(code, 21 | 22 | 25) && place != 0 {
        told.extend(records(place, tables, &read));
    }
    if matches!(code, 23..=25) {
        told.extend(lists_of(place, tables, &read));
    }
    told.join("\n")
}

fn records(number: u32, tables: &[Named], read: &[Vec<Row>]) -> Vec<String> {
    let mut told = Vec::new();
    for (table, rows) in tables.iter().zip(read) {
        let shown = line_of(number, rows).map(lists::shown_row);
        told.push(format!("  {}, record {number}:", table.name));
        told.push(format!("    {}", shown.as_deref().unwrap_or("absent")));
    }
    told
}

fn lists_of(parent: u32, tables: &[Named], read: &[Vec<Row>]) -> Vec<String> {
    let lists: Vec<Vec<Row>> = read.iter().map(|rows| children(parent, rows)).collect();
    let shown = lists::shown(&lists);
    let mut told = Vec::new();
    for ((table, rows), lines) in tables.iter().zip(read).zip(shown) {
        let name = &table.name;
        if parent == 0 {
            told.push(format!("  {name}, list of the top:"));
        } else if let Some(row) = line_of(parent, rows) {
            told.push(format!(
                "  {name}, list of record {parent} (line {}):",
                row.line
            ));
        } else {
            told.push(format!("  {name}: no record {parent}, so no list of it"));
            continue;
        }
        told.extend(lines.iter().map(|line| format!("    {line}")));
    }
    told
}

fn children<'a>(parent: u32, rows: &[Row<'a>]) -> Vec<Row<'a>> {
    let children = rows.iter().filter(|row| row.parent == parent);
    children.copied().collect()
}

fn line_of<'r, 'a>(number: u32, rows: &'r [Row<'a>]) -> Option<&'r Row<'a>> {
    rows.iter().find(|row| row.number == number)
}

#[cfg(test)]
mod tests {
    use super::*;

    fn told(code: u32, place: u32, texts: [&str; 3]) -> String {
        let names = ["o (old)", "f (first)", "s (second)"];
        let tables = [0, 1, 2].map(|table| Named {
            name: names[table].to_string(),
            text: texts[table].as_bytes(),
        });
        report(code, place, &tables)
    }

    #[test]
    fn a_record_is_shown_in_all_three_tables() {
        let texts = ["2\t0\tx\n3\t2\ta\tb\n", "2\t0\tx\n", "3\t0\tc\n"];
        assert_eq!(
            told(21, 3, texts),
            "content clash in record 3: two edits give it different contents (code 21)
  o (old), record 3:
    line   2: 3\t2\ta\tb
  f (first), record 3:
    absent
  s (second), record 3:
    line   1: 3\t0\tc"
        );
    }

    #[test]
    fn a_list_is_shown_in_all_three_tables() {
        let texts = ["1\t0\tx\n4\t0\tx\n2\t1\tx\n", "", "1\t0\tx\n"];
        assert_eq!(
            told(24, 1, texts),
            "broken list in the list of record 1: with all edits taken it stops before its end \
             (code 24)
  o (old), list of record 1 (line 1):
    line   3: 2\t1\tx
  f (first): no record 1, so no list of it
  s (second), list of record 1 (line 1):
    no records"
        );
    }

    #[test]
    fn a_lost_edit_shows_record_and_list() {
        let texts = ["1\t0\tx\n", "1\t0\tx\n2\t1\ty\n", ""];
        assert_eq!(
            told(25, 1, texts),
            "lost edit in record 1 or its list: an edit of it would not be in the merged table \
             (code 25)
  o (old), record 1:
    line   1: 1\t0\tx
  f (first), record 1:
    line   1: 1\t0\tx
  s (second), record 1:
    absent
  o (old), list of record 1 (line 1):
    no records
  f (first), list of record 1 (line 1):
    line   2: 2\t1\ty
  s (second): no record 1, so no list of it"
        );
    }

    #[test]
    fn the_top_is_no_record() {
        let texts = ["1\t0\tx\n", "2\t0\tx\n", ""];
        for code in [23, 24, 25] {
            let told = told(code, 0, texts);
            let lists = "
  o (old), list of the top:
    line   1: 1\t0\tx
  f (first), list of the top:
    line   1: 2\t0\tx
  s (second), list of the top:
    no records";
            assert!(told.ends_with(lists), "{told}");
            assert_eq!(told.lines().count(), 7, "{told}");
        }
    }
}
