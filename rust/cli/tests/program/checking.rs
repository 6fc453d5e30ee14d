//! check and content.

use crate::desk::{Desk, OLD};

#[test]
fn each_table_is_reported_on_a_line() {
    let desk = Desk::new("check");
    desk.write("empty.txt", "");
    desk.write("one.txt", "1\t0\tx\n");
    desk.run("check old.txt second.txt empty.txt one.txt")
        .accepted(
            "old.txt: 3 records, depth 2\nsecond.txt: 4 records, depth 2\n\
             empty.txt: 0 records, depth 0\none.txt: 1 record, depth 1\n",
        );
    let chain: String = (1..=512)
        .map(|number| format!("{number}\t{}\tx\n", number - 1))
        .collect();
    let ran = desk.run_with_input("check -", chain);
    ran.accepted("standard input: 512 records, depth 512\n");
}

#[test]
fn every_file_is_looked_at_and_the_worst_counts() {
    let desk = Desk::new("check-worst");
    desk.write("bad.txt", "1\n");
    let ran = desk.run("check bad.txt old.txt");
    assert_eq!(ran.status, Some(1));
    assert_eq!(ran.out, "old.txt: 3 records, depth 2\n");
    let bad = "brooksaddle: bad.txt, line 1: fewer than two tabs (code 5)\n    1\n";
    assert_eq!(ran.err, bad);

    let ran = desk.run("check absent.txt bad.txt old.txt");
    assert_eq!(ran.status, Some(2));
    assert_eq!(ran.out, "old.txt: 3 records, depth 2\n");
    assert!(ran.err.starts_with("brooksaddle: absent.txt: "), "{ran:?}");
    assert!(ran.err.ends_with(bad), "{ran:?}");
}

#[test]
fn quiet_leaves_only_the_status_and_file_trouble() {
    let desk = Desk::new("check-quiet");
    desk.write("bad.txt", "1\n");
    desk.run("check -q old.txt").accepted("");
    let ran = desk.run("check bad.txt old.txt --quiet");
    let told = (ran.status, &ran.out[..], &ran.err[..]);
    assert_eq!(told, (Some(1), "", ""));
    let ran = desk.run("check bad.txt absent.txt --quiet");
    ran.troubled("absent.txt: ");
}

#[test]
fn the_content_of_a_record() {
    let desk = Desk::new("content");
    let content = "hold\tfix=TARNO\tturn=L\n";
    desk.run("content old.txt 2").accepted(content);
    desk.run("content old.txt 2 -q").accepted(content);
    desk.run_with_input("content - 2", OLD).accepted(content);
}

#[test]
fn an_absent_record() {
    let desk = Desk::new("content-absent");
    desk.run("content old.txt 4")
        .refused("old.txt: no record 4");
    let ran = desk.run("content old.txt 65535");
    ran.refused("old.txt: no record 65535");
    let ran = desk.run("content old.txt 4 --quiet");
    let told = (ran.status, &ran.out[..], &ran.err[..]);
    assert_eq!(told, (Some(1), "", ""));
}
