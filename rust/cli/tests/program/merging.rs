//! Merges that are accepted.

use crate::desk::{Desk, CLASHING, FIRST, LEDGER, MERGED, OLD, SECOND};

const MERGE: &str = "merge old.txt first.txt second.txt";

#[test]
fn the_table_goes_to_standard_output() {
    let desk = Desk::new("merge-out");
    desk.run(MERGE).accepted(MERGED);
    desk.run(&format!("{MERGE} --table -")).accepted(MERGED);
    assert_eq!(desk.names().len(), 4);
}

#[test]
fn the_ledger_goes_behind_the_table() {
    let desk = Desk::new("merge-out-ledger");
    let both = format!("{MERGED}{LEDGER}");
    desk.run(&format!("{MERGE} --ledger -")).accepted(&both);
    let ran = desk.run(&format!("{MERGE} --ledger - --table -"));
    ran.accepted(&both);
}

#[test]
fn table_and_ledger_go_to_files() {
    let desk = Desk::new("merge-files");
    let ran = desk.run(&format!("{MERGE} --table new.txt --ledger=new.ledger"));
    ran.accepted("");
    assert_eq!(desk.read("new.txt"), MERGED);
    assert_eq!(desk.read("new.ledger"), LEDGER);
    assert_eq!(desk.names().len(), 6);
}

#[test]
fn one_to_a_file_and_one_to_standard_output() {
    let desk = Desk::new("merge-one-file");
    let ran = desk.run(&format!("--ledger new.ledger {MERGE}"));
    ran.accepted(MERGED);
    assert_eq!(desk.read("new.ledger"), LEDGER);
    let ran = desk.run(&format!("--ledger - --table new.txt {MERGE}"));
    ran.accepted(LEDGER);
    assert_eq!(desk.read("new.txt"), MERGED);
}

#[test]
fn the_table_may_replace_an_input() {
    let desk = Desk::new("merge-in-place");
    desk.run(&format!("{MERGE} --table first.txt")).accepted("");
    assert_eq!(desk.read("first.txt"), MERGED);
    assert_eq!(desk.read("old.txt"), OLD);
    assert_eq!(desk.names().len(), 4);
}

#[test]
fn any_one_table_comes_from_standard_input() {
    let desk = Desk::new("merge-in");
    for (words, input) in [
        ("merge - first.txt second.txt", OLD),
        ("merge old.txt - second.txt", FIRST),
        ("merge old.txt first.txt -", SECOND),
        ("merge -- old.txt first.txt -", SECOND),
    ] {
        desk.run_with_input(words, input).accepted(MERGED);
    }
}

#[test]
fn quiet_results_are_written() {
    let desk = Desk::new("merge-quiet");
    desk.run(&format!("{MERGE} -q")).accepted(MERGED);
    let ran = desk.run(&format!("--quiet {MERGE} --table new.txt"));
    ran.accepted("");
    assert_eq!(desk.read("new.txt"), MERGED);
}

#[test]
fn empty_tables_merge() {
    let desk = Desk::empty("merge-empty");
    desk.write("empty.txt", "");
    let merge = "merge empty.txt empty.txt empty.txt";
    let ran = desk.run(&format!("{merge} --table new.txt --ledger -"));
    ran.accepted("total\t0\t0\n");
    assert_eq!(desk.read("new.txt"), "");
}

#[test]
fn a_refusal_changes_no_file() {
    let desk = Desk::new("merge-refused");
    desk.write("new.ledger", "as it was\n");
    desk.write("damaged.txt", "1\t0\n");
    let before = desk.all();
    for (second, status) in [("clashing.txt", 1), ("damaged.txt", 1), ("absent.txt", 2)] {
        for table in ["first.txt", second, "new.txt"] {
            let merge = format!("merge old.txt first.txt {second}");
            let ran = desk.run(&format!("{merge} --table {table} --ledger new.ledger"));
            assert_eq!((ran.status, &ran.out[..]), (Some(status), ""));
            assert_eq!(desk.all(), before);
        }
    }
    assert_eq!(desk.read("clashing.txt"), CLASHING);
}

#[test]
fn a_quiet_refusal_has_no_words() {
    let desk = Desk::new("merge-refused-quiet");
    desk.write("damaged.txt", "1\t0\n");
    for second in ["clashing.txt", "damaged.txt"] {
        let ran = desk.run(&format!("merge -q old.txt first.txt {second}"));
        let told = (ran.status, &ran.out[..], &ran.err[..]);
        assert_eq!(told, (Some(1), "", ""));
    }
}
