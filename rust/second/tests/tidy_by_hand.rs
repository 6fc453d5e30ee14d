//! Small tables and their written forms, put down by hand from document 01.

use second::{tidy, Tidied};

/// The written form takes exactly its own length, and one byte less is too
/// short. Written again it stays.
#[track_caller]
fn is_written_as(text: &[u8], written: &[u8]) {
    let accepted = Tidied {
        code: 0,
        line: 0,
        length: written.len(),
        bytes: written.to_vec(),
    };
    for room in [written.len(), written.len() + 1, usize::MAX] {
        assert_eq!(tidy(text, room), accepted);
    }
    assert_eq!(tidy(written, written.len()), accepted);
    for room in [0, 1, written.len() - 1] {
        assert_eq!(tidy(text, room), too_short(written.len()));
    }
}

fn too_short(needed: usize) -> Tidied {
    Tidied {
        code: 31,
        line: 0,
        length: needed,
        bytes: Vec::new(),
    }
}

#[test]
fn one_record() {
    is_written_as(b"1\t0\tx\n", b"1\t0\tx\n");
    is_written_as(b"65535\t0\ta\tb\n", b"65535\t0\ta\tb\n");
}

#[test]
fn children_of_two_parents_alternate() {
    is_written_as(
        b"1\t0\tairport\n\
          2\t0\tairport\n\
          3\t1\thold\n\
          4\t2\thold\n\
          5\t1\tnote\n\
          6\t2\tnote\n",
        b"1\t0\tairport\n\
          3\t1\thold\n\
          5\t1\tnote\n\
          2\t0\tairport\n\
          4\t2\thold\n\
          6\t2\tnote\n",
    );
}

#[test]
fn two_chains_grow_in_turn() {
    is_written_as(
        b"10\t0\ta\n\
          20\t0\tb\n\
          11\t10\tc\n\
          21\t20\td\n\
          12\t11\te\n\
          22\t21\tf\n",
        b"10\t0\ta\n\
          11\t10\tc\n\
          12\t11\te\n\
          20\t0\tb\n\
          21\t20\td\n\
          22\t21\tf\n",
    );
}

#[test]
fn a_chain_stays() {
    let chain = b"3\t0\ta\n1\t3\tb\n65535\t1\tc\n2\t65535\td\n";
    is_written_as(chain, chain);
}

#[test]
fn line_order_not_number_order() {
    is_written_as(
        b"9\t0\ta\n\
          5\t9\tb\n\
          8\t0\tc\n\
          3\t9\td\n\
          4\t9\te\n\
          1\t8\tf\n",
        b"9\t0\ta\n\
          5\t9\tb\n\
          3\t9\td\n\
          4\t9\te\n\
          8\t0\tc\n\
          1\t8\tf\n",
    );
}

/// 1(2(4(6) 5) 3), given one depth after the other.
#[test]
fn all_below_a_child_before_the_next_child() {
    is_written_as(
        b"1\t0\ta\n\
          2\t1\tb\n\
          3\t1\tc\n\
          4\t2\td\n\
          5\t2\te\n\
          6\t4\tf\n",
        b"1\t0\ta\n\
          2\t1\tb\n\
          4\t2\td\n\
          6\t4\tf\n\
          5\t2\te\n\
          3\t1\tc\n",
    );
}

#[test]
fn last_line_goes_to_the_first_record() {
    is_written_as(
        b"1\t0\ta\n2\t0\tb\n3\t2\tc\n4\t3\td\n5\t1\te\n",
        b"1\t0\ta\n5\t1\te\n2\t0\tb\n3\t2\tc\n4\t3\td\n",
    );
}

/// Contents that look like lines, and the bytes at both ends of what may stand.
#[test]
fn contents_are_copied() {
    is_written_as(
        b"7\t0\t8\t7\tx\n\
          70\t0\t ~ \t~ ~\n\
          700\t7\t0\t0\t0\n\
          7000\t70\t\\t\\n\"'\n",
        b"7\t0\t8\t7\tx\n\
          700\t7\t0\t0\t0\n\
          70\t0\t ~ \t~ ~\n\
          7000\t70\t\\t\\n\"'\n",
    );
}

#[test]
fn longest_contents() {
    let long = "x".repeat(120);
    let text = format!("1\t0\t{long}\n2\t0\ta\n3\t1\t{long}\n");
    let written = format!("1\t0\t{long}\n3\t1\t{long}\n2\t0\ta\n");
    is_written_as(text.as_bytes(), written.as_bytes());
}

/// Two parents with 255 children each, in turn.
#[test]
fn as_many_lines_as_there_may_be() {
    let line = |number: u32, parent: u32| format!("{number}\t{parent}\tx\n");
    let mut text = line(1, 0) + &line(2, 0);
    for number in 3..=512 {
        text += &line(number, 2 - number % 2);
    }
    let mut written = line(1, 0);
    for number in (3..=511).step_by(2) {
        written += &line(number, 1);
    }
    written += &line(2, 0);
    for number in (4..=512).step_by(2) {
        written += &line(number, 2);
    }
    is_written_as(text.as_bytes(), written.as_bytes());
}

#[test]
fn the_empty_table_needs_no_room() {
    for room in [0, 1, 100] {
        assert_eq!(tidy(b"", room), Tidied::default());
    }
}

/// Each fault is told, however little room there is.
#[test]
fn a_refused_table_before_a_short_buffer() {
    let line_513: Vec<u8> = (1..=513)
        .flat_map(|number| format!("{number}\t0\tx\n").into_bytes())
        .collect();
    let refused: [(&[u8], u32, u32); 10] = [
        (&[b'\n'; 32_769], 1, 0),
        (b"1\t0\tx\n2\t1\ty", 2, 2),
        (&line_513, 3, 513),
        (b"1\t0\tx\n2\t1\t\x7f\n", 4, 2),
        (b"1\t0\tx\n2\t1\n", 5, 2),
        (b"1\t0\tx\n02\t1\ty\n", 6, 2),
        (b"1\t0\tx\n2\t01\ty\n", 7, 2),
        (b"1\t0\tx\n2\t1\t\ty\n", 8, 2),
        (b"1\t0\tx\n1\t1\ty\n", 9, 2),
        (b"1\t0\tx\n2\t3\ty\n", 10, 2),
    ];
    for (text, code, line) in refused {
        let told = Tidied {
            code,
            line,
            ..Tidied::default()
        };
        for room in [0, 1, text.len(), usize::MAX] {
            assert_eq!(tidy(text, room), told);
        }
    }
}
