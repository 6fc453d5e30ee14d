//! Files that can't be read, have no end, or have any name.

use crate::desk::{ran, Desk, MERGED, OLD};
use std::ffi::OsStr;
use std::fs::{self, File};
use std::os::unix::ffi::OsStrExt;

#[test]
fn a_file_that_is_not_there_is_told_before_any_table_is_judged() {
    let desk = Desk::new("absent");
    desk.write("damaged.txt", "1\n");
    for words in [
        "merge absent.txt first.txt second.txt",
        "merge damaged.txt absent.txt second.txt",
        "merge damaged.txt first.txt absent.txt --table first.txt",
        "tidy absent.txt",
        "content absent.txt 1",
        "check absent.txt",
        "check --quiet absent.txt",
    ] {
        let ran = desk.run(words);
        ran.troubled("absent.txt: No such file or directory");
    }
    assert_eq!(desk.names().len(), 5);
}

#[test]
fn a_folder_is_no_table() {
    let desk = Desk::new("folder");
    fs::create_dir(desk.path("inner")).unwrap();
    for words in [
        "merge old.txt first.txt inner",
        "check inner",
        "tidy inner",
        "content inner 1",
    ] {
        desk.run(words).troubled("inner: Is a directory");
    }
}

/// It must not be taken for an empty table.
#[test]
fn a_standard_input_open_for_writing_only_is_file_trouble() {
    let desk = Desk::new("input-to-write");
    for words in ["check -", "merge - first.txt second.txt --table first.txt"] {
        let mut program = desk.program(words.split(' '));
        program.stdin(File::create(desk.path("written.txt")).unwrap());
        ran(program.output().unwrap()).troubled("standard input: Bad file descriptor");
    }
}

#[test]
fn an_endless_text_is_answered() {
    let desk = Desk::new("endless");
    let over = "text over 32,768 bytes (code 1)";
    let ran_file = desk.run("check /dev/zero");
    ran_file.refused(&format!("/dev/zero: {over}"));
    let ran_file = desk.run("merge old.txt /dev/zero second.txt");
    ran_file.refused(&format!("/dev/zero (first): {over}"));
    let mut program = desk.program(["tidy", "-"]);
    program.stdin(File::open("/dev/zero").unwrap());
    let ran_input = ran(program.output().unwrap());
    ran_input.refused(&format!("standard input: {over}"));
}

#[test]
fn a_file_may_have_any_name() {
    let desk = Desk::new("names");
    let odd = OsStr::from_bytes(b"\xff\xe9 new\n.txt");
    desk.write(odd, OLD);
    let report = desk.program([OsStr::new("check"), odd]).output().unwrap();
    ran(report).accepted("\\xff\\xe9 new\\x0a.txt: 3 records, depth 2\n");

    let merge = ["merge", "old.txt", "first.txt", "second.txt", "--table"];
    let mut program = desk.program(merge.map(OsStr::new));
    ran(program.arg(odd).output().unwrap()).accepted("");
    assert_eq!(desk.read(odd), MERGED);

    let option = OsStr::from_bytes(b"--table=\xff.txt");
    let mut program = desk.program(merge[..4].iter().map(OsStr::new));
    ran(program.arg(option).output().unwrap()).accepted("");
    assert_eq!(desk.read(OsStr::from_bytes(b"\xff.txt")), MERGED);
    assert_eq!(desk.names().len(), 6);
}

#[test]
fn a_dash_in_a_folder_and_behind_two_dashes_is_a_file() {
    let desk = Desk::empty("dashes");
    desk.write("-", OLD);
    desk.write("--help", OLD);
    desk.run("check ./- -- --help")
        .accepted("./-: 3 records, depth 2\n--help: 3 records, depth 2\n");
}
