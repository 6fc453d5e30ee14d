//! What is left behind by results that are written, and by those that can't be.

use crate::desk::{ran, Desk, LEDGER, MERGED, OLD, PROGRAM};
use std::fs::{self, File, Permissions};
use std::io::{Read, Write};
use std::os::unix::fs::{symlink, FileTypeExt, PermissionsExt};
use std::process::{Command, Stdio};

const MERGE: &str = "merge old.txt first.txt second.txt";

fn mode(desk: &Desk, name: &str) -> u32 {
    fs::metadata(desk.path(name)).unwrap().permissions().mode() & 0o7777
}

#[test]
fn permissions_of_the_target_are_kept() {
    let desk = Desk::new("permissions");
    for kept in [0o600, 0o640, 0o444, 0o755] {
        desk.write("new.txt", "as it was\n");
        fs::set_permissions(desk.path("new.txt"), Permissions::from_mode(kept)).unwrap();
        desk.run(&format!("{MERGE} --table new.txt")).accepted("");
        assert_eq!(desk.read("new.txt"), MERGED);
        assert_eq!(mode(&desk, "new.txt"), kept);
        fs::remove_file(desk.path("new.txt")).unwrap();
    }
}

#[test]
fn the_file_behind_a_link_is_replaced() {
    let desk = Desk::new("links");
    fs::create_dir(desk.path("inner")).unwrap();
    symlink("../old.txt", desk.path("inner/second-link.txt")).unwrap();
    symlink("inner/second-link.txt", desk.path("link.txt")).unwrap();
    symlink("inner/new.ledger", desk.path("ledger.txt")).unwrap();
    let ran = desk.run(&format!("{MERGE} --table link.txt --ledger ledger.txt"));
    ran.accepted("");
    assert!(desk.path("link.txt").is_symlink());
    assert!(desk.path("ledger.txt").is_symlink());
    assert!(!desk.path("old.txt").is_symlink());
    assert_eq!(desk.read("old.txt"), MERGED);
    assert_eq!(desk.read("inner/new.ledger"), LEDGER);
    assert_eq!(fs::read_dir(desk.path("inner")).unwrap().count(), 2);
}

#[test]
fn a_link_that_leads_round_is_file_trouble() {
    let desk = Desk::new("links-round");
    symlink("round.txt", desk.path("round.txt")).unwrap();
    let ran = desk.run(&format!("{MERGE} --table round.txt"));
    ran.troubled("round.txt: ");
    assert_eq!(desk.names().len(), 5);
}

/// Table or ledger can't be written: neither is, and nothing is left over.
#[test]
fn trouble_with_one_target_changes_no_file() {
    let desk = Desk::new("targets");
    desk.write("new.txt", "as it was\n");
    fs::create_dir(desk.path("inner")).unwrap();
    let names = desk.names();
    for bad in [
        "absent/x.txt",
        "old.txt/x.txt",
        "inner",
        "inner/absent/",
        "/proc/x.txt",
    ] {
        for words in [
            format!("{MERGE} --table {bad}"),
            format!("{MERGE} --ledger {bad}"),
            format!("{MERGE} --table {bad} --ledger new.txt"),
            format!("{MERGE} --table new.txt --ledger {bad}"),
            format!("{MERGE} --ledger {bad} --table first.txt"),
            format!("tidy old.txt --table {bad}"),
        ] {
            desk.run(&words).troubled(&format!("{bad}: "));
            assert_eq!(desk.names(), names, "{words}");
            assert_eq!(desk.read("new.txt"), "as it was\n");
            assert_eq!(fs::read_dir(desk.path("inner")).unwrap().count(), 0);
        }
    }
    desk.run(MERGE).accepted(MERGED);
}

/// Whoever may write everywhere is not held up by a folder's permissions, and
/// then the file is written; everyone else finds nothing left behind.
#[test]
fn a_folder_that_may_not_be_written() {
    let desk = Desk::new("read-only");
    let inner = desk.path("inner");
    fs::create_dir(&inner).unwrap();
    fs::write(inner.join("new.txt"), "as it was\n").unwrap();
    fs::set_permissions(&inner, Permissions::from_mode(0o555)).unwrap();
    let may_write = fs::write(inner.join("probe"), "").is_ok();
    let _ = fs::remove_file(inner.join("probe"));
    let ran = desk.run(&format!("{MERGE} --table inner/new.txt"));
    fs::set_permissions(&inner, Permissions::from_mode(0o755)).unwrap();
    if may_write {
        ran.accepted("");
        assert_eq!(desk.read("inner/new.txt"), MERGED);
    } else {
        ran.troubled("inner/new.txt: Permission denied");
        assert_eq!(desk.read("inner/new.txt"), "as it was\n");
    }
    assert_eq!(fs::read_dir(&inner).unwrap().count(), 1);
}

/// With no room for a single byte, the temporary file is made but can't be filled.
#[test]
fn a_file_system_without_room_keeps_the_old_file() {
    let desk = Desk::new("no-room");
    let limited = format!("trap '' XFSZ; ulimit -f 0; exec \"$0\" {MERGE} --table first.txt");
    let before = desk.all();
    let mut shell = Command::new("sh");
    shell
        .current_dir(&desk.folder)
        .args(["-c", &limited, PROGRAM]);
    let ran = ran(shell.output().unwrap());
    ran.troubled("first.txt: File too large");
    assert_eq!(desk.all(), before);
}

#[test]
fn a_temporary_file_left_over_is_no_hindrance() {
    let desk = Desk::new("left-over");
    let mut child = desk.waiting("merge old.txt - second.txt --table new.txt");
    let left_over = format!(".new.txt.brooksaddle-{}-0", child.id());
    desk.write(&left_over, "left over\n");
    let first = desk.read("first.txt");
    child
        .stdin
        .take()
        .unwrap()
        .write_all(first.as_bytes())
        .unwrap();
    ran(child.wait_with_output().unwrap()).accepted("");
    assert_eq!(desk.read("new.txt"), MERGED);
    assert_eq!(desk.read(&left_over), "left over\n");
    assert_eq!(desk.names().len(), 6);
}

#[test]
fn long_names_have_room_for_a_temporary_file() {
    let desk = Desk::new("long-names");
    let (table, ledger) = (
        format!("{}t", "x".repeat(254)),
        format!("{}l", "x".repeat(254)),
    );
    let ran = desk.run(&format!("{MERGE} --table {table} --ledger {ledger}"));
    ran.accepted("");
    assert_eq!(desk.read(table), MERGED);
    assert_eq!(desk.read(ledger), LEDGER);
    assert_eq!(desk.names().len(), 6);
}

/// A pipe made for the test: a program at fault that replaced a device of the
/// machine by a file would harm more than the test.
#[test]
fn a_pipe_is_written_to_and_stays() {
    let desk = Desk::new("pipe");
    let made = Command::new("mkfifo").arg(desk.path("pipe")).status();
    assert!(made.unwrap().success());
    symlink("pipe", desk.path("link")).unwrap();
    // Open both ways, so that neither end waits for the other.
    let both_ways = File::options()
        .read(true)
        .write(true)
        .open(desk.path("pipe"));
    let mut pipe = both_ways.unwrap();
    for target in ["pipe", "link"] {
        let ran = desk.run(&format!("{MERGE} --table {target} --ledger -"));
        ran.accepted(LEDGER);
        let kind = fs::symlink_metadata(desk.path("pipe")).unwrap().file_type();
        assert!(kind.is_fifo() && desk.path("link").is_symlink());
        let mut text = vec![0; MERGED.len()];
        pipe.read_exact(&mut text).unwrap();
        assert_eq!(text, MERGED.as_bytes());
    }
    assert_eq!(desk.names().len(), 6);
}

#[test]
fn a_full_standard_output_is_file_trouble_and_no_file_is_changed() {
    let desk = Desk::new("full");
    let before = desk.all();
    for words in [
        &format!("{MERGE} --ledger first.txt"),
        "check old.txt",
        "content old.txt 1",
        "tidy old.txt",
        "--help",
        "--version",
    ] {
        let ran = desk.run_onto(words, "/dev/full");
        ran.troubled("standard output: No space left");
    }
    assert_eq!(desk.all(), before);
}

#[test]
fn a_standard_output_open_for_reading_only_is_file_trouble_and_no_file_is_changed() {
    let desk = Desk::new("output-to-read");
    let before = desk.all();
    for words in [
        &format!("{MERGE} --ledger first.txt"),
        "check old.txt",
        "--help",
    ] {
        let mut program = desk.program(words.split(' '));
        program.stdout(File::open(desk.path("old.txt")).unwrap());
        ran(program.output().unwrap()).troubled("standard output: Bad file descriptor");
    }
    assert_eq!(desk.all(), before);
}

#[test]
fn a_broken_pipe_is_file_trouble_and_no_file_is_changed() {
    let desk = Desk::new("broken-pipe");
    let before = desk.all();
    for words in [
        "merge - first.txt second.txt --ledger first.txt",
        "tidy -",
        "check -",
        "content - 1",
    ] {
        let mut child = desk.waiting(words);
        drop(child.stdout.take());
        child
            .stdin
            .take()
            .unwrap()
            .write_all(OLD.as_bytes())
            .unwrap();
        let ran = ran(child.wait_with_output().unwrap());
        ran.troubled("standard output: Broken pipe");
    }
    assert_eq!(desk.all(), before);
}

#[test]
fn words_that_no_one_hears_do_not_change_the_status() {
    let desk = Desk::new("unheard");
    let mut program = desk.program(["merge", "old.txt", "first.txt", "clashing.txt"]);
    let full = File::options().write(true).open("/dev/full").unwrap();
    let status = program.stderr(full).stdout(Stdio::null()).status().unwrap();
    assert_eq!(status.code(), Some(1));
}
