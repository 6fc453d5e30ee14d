//! The lettered trees of document 01.

use crate::notation::table;
use crate::{accepts, refuses};

/// The result is a tree whose records with these numbers have the origin told,
/// all others origin 0.
#[track_caller]
pub fn merges(old: &str, first: &str, second: &str, result: &str, origins: &[(u32, u32)]) {
    let [old, first, second, merged] = [old, first, second, result].map(table);
    accepts([&old, &first, &second], &merged, &ledger(&merged, origins));
}

#[track_caller]
pub fn clashes(old: &str, first: &str, second: &str, code: u32, place: u32) {
    let [old, first, second] = [old, first, second].map(table);
    refuses([&old, &first, &second], code, 0, place);
    refuses([&old, &second, &first], code, 0, place);
}

fn ledger(merged: &str, origins: &[(u32, u32)]) -> String {
    let mut ledger = String::new();
    let mut bytes = 0;
    for line in merged.lines() {
        let parts: Vec<&str> = line.splitn(3, '\t').collect();
        let number: u32 = parts[0].parse().expect("a number");
        let origin = origins.iter().find(|(known, _)| *known == number);
        let origin = origin.map_or(0, |&(_, origin)| origin);
        ledger += &format!("{number}\t{origin}\t{}\n", parts[2].len());
        bytes += parts[2].len();
    }
    ledger + &format!("total\t{}\t{bytes}\n", merged.lines().count())
}

#[test]
fn a() {
    merges("", "", "", "", &[]);
}

#[test]
fn b() {
    merges("1(2 3 4)", "1(3 4)", "1(2 3 4 5)", "1(3 4 5)", &[(5, 2)]);
}

#[test]
fn c() {
    merges(
        "1 2(3 4)",
        "1(2(3 4))",
        "1 2(3 4 5)",
        "1(2(3 4 5))",
        &[(5, 2)],
    );
}

#[test]
fn d() {
    clashes("1(2)", "1(2 5)", "1(2 6)", 23, 1);
}

#[test]
fn e() {
    clashes("1(2 3 4)", "1(2 4)", "1(2 3)", 24, 1);
}

#[test]
fn f() {
    clashes("1(2 3 4 5)", "1(3 2 4 5)", "1(2 3 5 4)", 23, 1);
}

#[test]
fn g() {
    clashes("1 2", "1(2)", "2(1)", 22, 1);
}

#[test]
fn h() {
    clashes("3 1 4 2 5", "3 4 2(1) 5", "3 1(2) 4 5", 25, 1);
}

#[test]
fn i() {
    clashes("1(2)", "1", "1(2*)", 25, 2);
}

#[test]
fn j() {
    clashes("1(2(3)) 4 5", "1 4 5(3)", "1 4(2(3)) 5", 24, 2);
}

#[test]
fn k() {
    merges("1(2) 3", "1 3", "1 3(2)", "1 3(2)", &[]);
}

#[test]
fn l() {
    clashes("1(2 3 4)", "1(2)", "1(2 3 5 4)", 25, 1);
}

#[test]
fn m() {
    merges(
        "1(2(4 5 6) 3(7))",
        "1(3(7) 2(4 5 6) 8)",
        "1(2(5 4 6) 3*)",
        "1(3* 2(5 4 6) 8)",
        &[(3, 2), (8, 1)],
    );
}
