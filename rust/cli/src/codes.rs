//! Document 01's codes in words.

use crate::shown;

/// What is wrong with a table, as document 01 words it.
fn fault(code: u32) -> &'static str {
    match code {
        1 => "text over 32,768 bytes",
        2 => "text not empty, last byte not LF",
        3 => "the line is the 513th",
        4 => "a byte before its LF is neither 9 nor 32 to 126",
        5 => "fewer than two tabs",
        6 => "number malformed or outside 1 to 65,535",
        7 => "parent malformed or above 65,535",
        8 => "content empty, over 120 bytes or with an empty field",
        9 => "number stands on an earlier line",
        10 => "parent neither 0 nor on an earlier line",
        _ => "unknown fault",
    }
}

/// Says why a table is unreadable, and shows the line. Line 0 is no line: the
/// fault is the whole text's.
pub fn unreadable(table: &str, text: &[u8], code: u32, line: u32) -> String {
    let fault = fault(code);
    let Some(before) = line.checked_sub(1) else {
        return format!("{table}: {fault} (code {code})");
    };
    let mut lines = text.split(|&byte| byte == b'\n');
    let shown = shown::faulty_line(lines.nth(before as usize).unwrap_or_default());
    format!("{table}, line {line}: {fault} (code {code})\n    {shown}")
}

/// Says that a clash was met, and in which record or list.
pub fn clash(code: u32, place: u32) -> String {
    let (clash, meaning) = match code {
        21 => ("content clash", "two edits give it different contents"),
        22 => ("parent clash", "two edits give it different parents"),
        23 => (
            "neighbour clash",
            "two edits disagree on which record follows or precedes another",
        ),
        24 => (
            "broken list",
            "with all edits taken it stops before its end",
        ),
        _ => (
            "lost edit",
            "an edit of it would not be in the merged table",
        ),
    };
    let whose = place_of_clash(code, place);
    format!("{clash} in {whose}: {meaning} (code {code})")
}

fn place_of_clash(code: u32, place: u32) -> String {
    match (code, place) {
        (_, 0) => "the top's list".to_string(),
        (21 | 22, _) => format!("record {place}"),
        (23 | 24, _) => format!("the list of record {place}"),
        _ => format!("record {place} or its list"),
    }
}

/// Says that the tables merge, but to one that no table may be.
pub fn too_large() -> String {
    "the merged table would be over 512 records or 32,768 bytes (code 26)".to_string()
}

#[cfg(test)]
mod tests {
    use super::*;

    /// The words between the bars of document 01's table of codes.
    fn words_in_document(code: u32) -> String {
        let document = include_str!("../../../docs/document-01.md");
        let start = format!("| {code} | ");
        let row = document.lines().find(|line| line.starts_with(&start));
        let row = row.expect("document 01 has a row for the code");
        row.split(" | ").nth(1).unwrap().to_string()
    }

    #[test]
    fn faults_are_worded_as_in_document_01() {
        for code in 1..=10 {
            assert_eq!(fault(code), words_in_document(code));
        }
        for code in 21..=25 {
            let start = format!("{} in record 7", words_in_document(code));
            let told = clash(code, 7).replace("the list of ", "");
            assert!(told.starts_with(&start), "{told}");
            assert!(told.ends_with(&format!("(code {code})")), "{told}");
        }
    }

    #[test]
    fn the_faulty_line_is_shown() {
        let text = b"1\t0\tx\n2\t0\t\n3\t0";
        assert_eq!(
            unreadable("a.txt (old)", text, 8, 2),
            "a.txt (old), line 2: content empty, over 120 bytes or with an empty field (code 8)\
             \n    2\\t0\\t"
        );
        let told = unreadable("a.txt", text, 2, 3);
        assert!(told.ends_with("(code 2)\n    3\\t0"), "{told}");
        assert_eq!(
            unreadable("a.txt", text, 1, 0),
            "a.txt: text over 32,768 bytes (code 1)"
        );
    }

    #[test]
    fn places_of_clashes() {
        assert_eq!(place_of_clash(21, 3), "record 3");
        assert_eq!(place_of_clash(24, 3), "the list of record 3");
        assert_eq!(place_of_clash(23, 0), "the top's list");
        assert_eq!(place_of_clash(25, 0), "the top's list");
        assert_eq!(place_of_clash(25, 3), "record 3 or its list");
    }
}
