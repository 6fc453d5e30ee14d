//! Tables that do not merge: codes 21 to 26, with what the two writers need to see.

use crate::desk::{Desk, Ran};

/// The table of a lettered tree, each record given by number and parent.
fn table(records: &[(u32, u32)]) -> String {
    let line = |(number, parent)| format!("{number}\t{parent}\tfix={number}\n");
    records.iter().copied().map(line).collect()
}

fn merged(name: &str, [old, first, second]: [String; 3]) -> Ran {
    let desk = Desk::empty(name);
    desk.write("o", old);
    desk.write("f", first);
    desk.write("s", second);
    let before = desk.all();
    let ran = desk.run("merge o f s --table f --ledger s");
    assert_eq!(desk.all(), before);
    ran
}

#[test]
fn a_content_clash() {
    let texts = [
        "1\t0\ta\n3\t1\tb\n",
        "1\t0\ta\n3\t1\tc\\d\n",
        "3\t0\te\tf\n",
    ];
    merged("clash-21", texts.map(String::from)).refused(
        "content clash in record 3: two edits give it different contents (code 21)
  o (old), record 3:
    line   2: 3\t1\tb
  f (first), record 3:
    line   2: 3\t1\tc\\d
  s (second), record 3:
    line   1: 3\t0\te\tf",
    );
}

/// Tree G.
#[test]
fn a_parent_clash() {
    let texts = [[(1, 0), (2, 0)], [(1, 0), (2, 1)], [(2, 0), (1, 2)]];
    merged("clash-22", texts.map(|records| table(&records))).refused(
        "parent clash in record 1: two edits give it different parents (code 22)
  o (old), record 1:
    line   1: 1\t0\tfix=1
  f (first), record 1:
    line   1: 1\t0\tfix=1
  s (second), record 1:
    line   2: 1\t2\tfix=1",
    );
}

/// Tree D.
#[test]
fn a_neighbour_clash() {
    let texts = [
        table(&[(1, 0), (2, 1)]),
        table(&[(1, 0), (2, 1), (5, 1)]),
        table(&[(1, 0), (2, 1), (6, 1)]),
    ];
    merged("clash-23", texts).refused(
        "neighbour clash in the list of record 1: \
         two edits disagree on which record follows or precedes another (code 23)
  o (old), list of record 1 (line 1):
    line   2: 2\t1\tfix=2
  f (first), list of record 1 (line 1):
    line   2: 2\t1\tfix=2
    line   3: 5\t1\tfix=5
  s (second), list of record 1 (line 1):
    line   2: 2\t1\tfix=2
    line   3: 6\t1\tfix=6",
    );
}

#[test]
fn a_neighbour_clash_at_the_top() {
    let texts = [&[][..], &[(5, 0)], &[(6, 0)]];
    merged("clash-23-top", texts.map(table)).refused(
        "neighbour clash in the top's list: \
         two edits disagree on which record follows or precedes another (code 23)
  o (old), list of the top:
    no records
  f (first), list of the top:
    line   1: 5\t0\tfix=5
  s (second), list of the top:
    line   1: 6\t0\tfix=6",
    );
}

/// Tree E.
#[test]
fn a_broken_list() {
    let texts = [
        table(&[(1, 0), (2, 1), (3, 1), (4, 1)]),
        table(&[(1, 0), (2, 1), (4, 1)]),
        table(&[(1, 0), (2, 1), (3, 1)]),
    ];
    let ran = merged("clash-24", texts);
    ran.refused(
        "broken list in the list of record 1: with all edits taken it stops before its end (code 24)
  o (old), list of record 1 (line 1):
    line   2: 2\t1\tfix=2
    line   3: 3\t1\tfix=3
    line   4: 4\t1\tfix=4
  f (first), list of record 1 (line 1):
    line   2: 2\t1\tfix=2
    line   3: 4\t1\tfix=4
  s (second), list of record 1 (line 1):
    line   2: 2\t1\tfix=2
    line   3: 3\t1\tfix=3",
    );
}

/// Tree I.
#[test]
fn a_lost_edit() {
    let texts = ["1\t0\ta\n2\t1\tb\n", "1\t0\ta\n", "1\t0\ta\n2\t1\tc\n"];
    merged("clash-25", texts.map(String::from)).refused(
        "lost edit in record 2 or its list: an edit of it would not be in the merged table (code 25)
  o (old), record 2:
    line   2: 2\t1\tb
  f (first), record 2:
    absent
  s (second), record 2:
    line   2: 2\t1\tc
  o (old), list of record 2 (line 2):
    no records
  f (first): no record 2, so no list of it
  s (second), list of record 2 (line 2):
    no records",
    );
}

/// 512 records at the top of old, and each desk adds one under another record.
#[test]
fn a_merged_table_that_is_too_large() {
    let old: Vec<(u32, u32)> = (1..=511).map(|number| (number, 0)).collect();
    let with = |one: (u32, u32)| table(&[&old[..], &[one]].concat());
    let texts = [table(&old), with((600, 1)), with((601, 2))];
    merged("clash-26", texts)
        .refused("the merged table would be over 512 records or 32,768 bytes (code 26)");
}

/// Two insertions at one place among 500 records: the rest is cut.
#[test]
fn a_long_list_is_shown_around_what_differs() {
    let with = |added: &[u32]| -> String {
        let numbers = (1..=250).chain(added.iter().copied()).chain(251..=500);
        numbers.map(|number| format!("{number}\t0\tx\n")).collect()
    };
    merged("clash-long", [with(&[]), with(&[600]), with(&[700])]).refused(
        "neighbour clash in the top's list: \
         two edits disagree on which record follows or precedes another (code 23)
  o (old), list of the top:
    … 249 records in the same order in all three
    line 250: 250\t0\tx
    line 251: 251\t0\tx
    … 249 records in the same order in all three
  f (first), list of the top:
    … 249 records in the same order in all three
    line 250: 250\t0\tx
    line 251: 600\t0\tx
    line 252: 251\t0\tx
    … 249 records in the same order in all three
  s (second), list of the top:
    … 249 records in the same order in all three
    line 250: 250\t0\tx
    line 251: 700\t0\tx
    line 252: 251\t0\tx
    … 249 records in the same order in all three",
    );
}

#[test]
fn a_name_given_stands_for_the_files() {
    let desk = Desk::new("clash-name");
    let merge = "merge old.txt first.txt clashing.txt --name procedures/north.table";
    desk.run(merge).refused(
        "procedures/north.table: \
         content clash in record 3: two edits give it different contents (code 21)
  procedures/north.table (old), record 3:
    line   3: 3\t1\tnote\ttext=old
  procedures/north.table (first), record 3:
    line   3: 3\t1\tnote\ttext=new
  procedures/north.table (second), record 3:
    line   3: 3\t1\tnote\ttext=other",
    );
}
