//! Small tables, their answers worked out by hand from document 01.

use second::{check, content, content_place, tidy, Checked, Part, Tidied};

const OLD: &[u8] = b"1\t0\tairport\tid=XQAA\n\
                     2\t1\thold\tfix=TARNO\tturn=L\n\
                     3\t1\tnote\ttext=old\n";

/// 1(2(4 6) 3(5)) 7, with lines of other parents between children.
const INTERLEAVED: &[u8] = b"1\t0\ta\n\
                             7\t0\tg\n\
                             2\t1\tb\n\
                             4\t2\td\n\
                             3\t1\tc\n\
                             5\t3\te\n\
                             6\t2\tf\n";

fn accepted(count: usize, depth: usize) -> Checked {
    Checked {
        code: 0,
        line: 0,
        count,
        depth,
    }
}

fn refused(code: u32, line: u32) -> Checked {
    Checked {
        code,
        line,
        count: 0,
        depth: 0,
    }
}

#[track_caller]
fn refuses(text: &[u8], code: u32, line: u32) {
    assert_eq!(check(text), refused(code, line));
    let tidied = Tidied {
        code,
        line,
        ..Tidied::default()
    };
    assert_eq!(tidy(text, usize::MAX), tidied);
    for number in [0, 1, 2, 65_535, u32::MAX] {
        assert_eq!(content_place(text, number), Part::default());
    }
}

#[track_caller]
fn accepts(text: &[u8], count: usize, depth: usize) {
    assert_eq!(check(text), accepted(count, depth));
    assert_eq!(tidy(text, usize::MAX).length, text.len());
}

fn tops(lines: u32) -> Vec<u8> {
    (1..=lines)
        .flat_map(|n| format!("{n}\t0\tx\n").into_bytes())
        .collect()
}

fn chain(lines: u32) -> Vec<u8> {
    (1..=lines)
        .flat_map(|n| format!("{n}\t{}\tx\n", n - 1).into_bytes())
        .collect()
}

/// 32,768 bytes: 512 lines of 64.
fn full() -> Vec<u8> {
    (10_000..10_512)
        .flat_map(|n| format!("{n}\t0\t{}\n", "x".repeat(55)).into_bytes())
        .collect()
}

#[test]
fn accepted_tables() {
    accepts(b"", 0, 0);
    accepts(b"1\t0\tx\n", 1, 1);
    accepts(b"65535\t0\tx\n1\t65535\ty\n", 2, 2);
    accepts(OLD, 3, 2);
    accepts(INTERLEAVED, 7, 3);
}

#[test]
fn code_1_over_32768_bytes() {
    let mut text = full();
    assert_eq!(text.len(), 32_768);
    accepts(&text, 512, 1);
    text.insert(8, b'x');
    refuses(&text, 1, 0);
    refuses(&[0; 32_769], 1, 0);
}

#[test]
fn code_2_unended() {
    refuses(b"x", 2, 1);
    refuses(b"1\t0\tx", 2, 1);
    refuses(b"1\t0\tx\n2\t0\ty", 2, 2);
    refuses(b"\n\n\0", 2, 3);
    let mut text = tops(512);
    text.push(b'5');
    refuses(&text, 2, 513);
}

#[test]
fn code_3_line_513() {
    accepts(&tops(512), 512, 1);
    refuses(&tops(513), 3, 513);
    let mut text = tops(512);
    text.extend(b"\0\n");
    refuses(&text, 3, 513);
}

#[test]
fn code_4_bad_byte() {
    refuses(b"1\t0\tx\0\n", 4, 1);
    refuses(b"1\t0\tx\n2\t0\tx\r\n", 4, 2);
    refuses(b"1\t0\t\x7f\n", 4, 1);
    refuses(b"\xff\n", 4, 1);
    accepts(b"1\t0\t ~\n", 1, 1);
}

#[test]
fn code_5_fewer_than_two_tabs() {
    refuses(b"\n", 5, 1);
    refuses(b"1\n", 5, 1);
    refuses(b"1\t0\n", 5, 1);
    refuses(b"1\t0\tx\n2 0\tx\n", 5, 2);
}

#[test]
fn code_6_number() {
    for number in [
        "",
        "0",
        "01",
        "65536",
        "70000",
        "1a",
        " 1",
        "-1",
        "+1",
        "99999999999",
    ] {
        refuses(format!("{number}\t0\tx\n").as_bytes(), 6, 1);
    }
    refuses(b"\t\t\n", 6, 1);
}

#[test]
fn code_7_parent() {
    for parent in ["", "00", "01", "65536", "0a", " 0", "-0", "99999999999"] {
        refuses(format!("1\t{parent}\tx\n").as_bytes(), 7, 1);
    }
}

#[test]
fn code_8_content() {
    let of = |content: &str| format!("1\t0\t{content}\n").into_bytes();
    accepts(&of(&"x".repeat(120)), 1, 1);
    accepts(&of("a\tb\tc"), 1, 1);
    refuses(&of(&"x".repeat(121)), 8, 1);
    for content in ["", "\t", "\tx", "x\t", "x\t\ty"] {
        refuses(&of(content), 8, 1);
    }
}

#[test]
fn code_9_number_on_earlier_line() {
    refuses(b"1\t0\tx\n1\t0\tx\n", 9, 2);
    refuses(b"1\t0\tx\n2\t1\tx\n1\t1\ty\n", 9, 3);
}

#[test]
fn code_10_parent_not_on_earlier_line() {
    refuses(b"1\t1\tx\n", 10, 1);
    refuses(b"1\t2\tx\n2\t0\tx\n", 10, 1);
    refuses(b"1\t0\tx\n2\t65535\tx\n", 10, 2);
}

#[test]
fn first_faulty_line_then_lowest_code() {
    refuses(b"1\t5\tx\n\0\n", 10, 1);
    refuses(b"0\t00\t\n", 6, 1);
    refuses(b"1\t00\t\n", 7, 1);
    refuses(b"1\t9\t\n", 8, 1);
    refuses(b"1\t0\tx\n1\t9\tx\n", 9, 2);
    refuses(b"1\t5\tx\n\0", 2, 2);
}

#[test]
fn depth() {
    accepts(&tops(5), 5, 1);
    accepts(&chain(512), 512, 512);
    accepts(b"1\t0\ta\n2\t1\tb\n3\t2\tc\n4\t1\td\n", 4, 3);
}

#[test]
fn contents() {
    assert_eq!(content(OLD, 2), b"hold\tfix=TARNO\tturn=L");
    assert_eq!(
        content_place(OLD, 3),
        Part {
            start: 50,
            length: 13
        }
    );
    for number in [0, 4, 65_535, 65_536, 65_537, u32::MAX] {
        assert_eq!(content_place(OLD, number), Part::default());
        assert_eq!(content(OLD, number), b"");
    }
}

#[test]
fn written_form() {
    let written = b"1\t0\ta\n2\t1\tb\n4\t2\td\n6\t2\tf\n3\t1\tc\n5\t3\te\n7\t0\tg\n";
    let tidied = tidy(INTERLEAVED, written.len());
    assert_eq!((tidied.code, tidied.line), (0, 0));
    assert_eq!(tidied.length, written.len());
    assert_eq!(tidied.bytes, written);
    assert_eq!(tidy(OLD, 1_000).bytes, OLD);
    assert_eq!(tidy(&chain(512), 32_768).bytes, chain(512));
    assert_eq!(tidy(b"", 0), Tidied::default());
}

#[test]
fn one_byte_short() {
    let short = Tidied {
        code: 31,
        line: 0,
        length: OLD.len(),
        bytes: Vec::new(),
    };
    assert_eq!(tidy(OLD, OLD.len() - 1), short);
    assert_eq!(tidy(OLD, 0), short);
    refuses(b"\n", 5, 1);
    assert_eq!(tidy(b"\n", 0).code, 5);
}
