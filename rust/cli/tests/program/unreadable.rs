//! Unreadable tables: codes 1 to 10, in words, with table and line.

use crate::desk::{Desk, OLD};

/// A damaged text, and the words behind the table's name.
const DAMAGED: [(&str, &str); 8] = [
    (
        "1\t0\tx\n2\t0\ty",
        ", line 2: text not empty, last byte not LF (code 2)\n    2\\t0\\ty",
    ),
    (
        "1\t0\tx\r\n",
        ", line 1: a byte before its LF is neither 9 nor 32 to 126 (code 4)\n    1\\t0\\tx\\x0d",
    ),
    (
        "1\t0\tx\n\n",
        ", line 2: fewer than two tabs (code 5)\n    ",
    ),
    (
        "1\t0\tx\n65536\t0\tx\n",
        ", line 2: number malformed or outside 1 to 65,535 (code 6)\n    65536\\t0\\tx",
    ),
    (
        "1\t00\tx\n",
        ", line 1: parent malformed or above 65,535 (code 7)\n    1\\t00\\tx",
    ),
    (
        "1\t0\tx\t\ty\\\n",
        ", line 1: content empty, over 120 bytes or with an empty field (code 8)\
         \n    1\\t0\\tx\\t\\ty\\\\",
    ),
    (
        "1\t0\tx\n1\t0\ty\n",
        ", line 2: number stands on an earlier line (code 9)\n    1\\t0\\ty",
    ),
    (
        "1\t2\tx\n2\t0\ty\n",
        ", line 1: parent neither 0 nor on an earlier line (code 10)\n    1\\t2\\tx",
    ),
];

/// Those, and the texts that are too long.
fn damaged() -> Vec<(String, &'static str)> {
    let lines = (1..=513).map(|number| format!("{number}\t0\tx\n"));
    let line_513 = ", line 513: the line is the 513th (code 3)\n    513\\t0\\tx";
    let mut damaged = vec![
        ("x".repeat(32_769), ": text over 32,768 bytes (code 1)"),
        (lines.collect(), line_513),
    ];
    damaged.extend(DAMAGED.map(|(text, words)| (text.to_string(), words)));
    damaged
}

#[test]
fn each_call_tells_table_line_and_fault() {
    let desk = Desk::empty("unreadable");
    desk.write("sound.txt", OLD);
    for (text, words) in damaged() {
        desk.write("bad.txt", &text);
        let plain = format!("bad.txt{words}");
        desk.run("check bad.txt").refused(&plain);
        desk.run("tidy bad.txt --table bad.txt").refused(&plain);
        desk.run("content bad.txt 1").refused(&plain);
        for (merge, role) in [
            ("merge bad.txt bad.txt bad.txt", "old"),
            ("merge sound.txt bad.txt bad.txt", "first"),
            ("merge sound.txt sound.txt bad.txt", "second"),
        ] {
            let expected = format!("bad.txt ({role}){words}");
            desk.run(merge).refused(&expected);
        }
        let from_input = desk.run_with_input("merge sound.txt - sound.txt", &text);
        from_input.refused(&format!("standard input (first){words}"));
        let named = desk.run("merge sound.txt bad.txt sound.txt --name procedures.table");
        named.refused(&format!("procedures.table (first){words}"));
        assert_eq!(desk.read("bad.txt"), text);
    }
}

#[test]
fn a_long_line_is_cut() {
    let desk = Desk::empty("unreadable-long");
    desk.write("bad.txt", format!("{}\n", "x".repeat(5_000)));
    let shown = "x".repeat(160);
    desk.run("check bad.txt").refused(&format!(
        "bad.txt, line 1: fewer than two tabs (code 5)\n    {shown} … (5000 bytes)"
    ));
}
