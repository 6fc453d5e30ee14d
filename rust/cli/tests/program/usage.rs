//! Help, version, and calls that the program can't make sense of.

use crate::desk::Desk;
use std::os::unix::fs::symlink;

#[test]
fn help_and_version_are_printed() {
    let desk = Desk::empty("help");
    for words in ["--help", "-h", "merge --help", "check -h absent.txt"] {
        let ran = desk.run(words);
        assert_eq!((ran.status, &ran.err[..]), (Some(0), ""));
        for word in [
            "merge OLD FIRST SECOND",
            "check FILE",
            "tidy FILE",
            "Exit status",
        ] {
            assert!(ran.out.contains(word), "{}", ran.out);
        }
    }
    for words in ["--version", "-V"] {
        let version = concat!("brooksaddle ", env!("CARGO_PKG_VERSION"), "\n");
        desk.run(words).accepted(version);
    }
}

#[test]
fn usage_is_told_in_one_line_with_a_hint() {
    let desk = Desk::new("usage");
    for words in [
        "",
        "mend old.txt",
        "merge old.txt first.txt",
        "merge old.txt first.txt second.txt surplus.txt",
        "merge old.txt first.txt second.txt --table",
        "merge old.txt first.txt second.txt --table a --table b",
        "merge - first.txt -",
        "check",
        "check old.txt --strict",
        "check old.txt --ledger new.txt",
        "tidy old.txt first.txt",
        "content old.txt",
        "content old.txt 0",
        "content old.txt 65536",
        "content old.txt 01",
        "content old.txt one",
    ] {
        let ran = desk.run(words);
        ran.troubled("");
        assert!(ran.err.ends_with(" (see brooksaddle --help)\n"), "{ran:?}");
    }
    let no_words = desk.program([""; 0]).output().unwrap();
    assert_eq!(no_words.status.code(), Some(2));
    assert_eq!(desk.names().len(), 4);
}

#[test]
fn usage_is_told_even_if_quiet() {
    let desk = Desk::empty("usage-quiet");
    desk.run("--quiet check").troubled("check takes");
}

#[test]
fn table_and_ledger_are_two_files() {
    let desk = Desk::new("two-files");
    symlink("new.txt", desk.path("link.txt")).unwrap();
    let merge = "merge old.txt first.txt second.txt --table new.txt --ledger";
    for ledger in ["new.txt", "./new.txt", "../two-files/new.txt", "link.txt"] {
        let ran = desk.run(&format!("{merge} {ledger}"));
        ran.troubled("table and ledger would be the same file");
    }
    assert_eq!(desk.names().len(), 5);
}
