//! Names and lines as a person can read them, whatever bytes they have.

use std::ffi::OsStr;
use std::fmt::Write;
use std::os::unix::ffi::OsStrExt;

/// How many bytes of a faulty line are shown. The longest sound line has 132.
const MOST_SHOWN: usize = 160;

/// A file name on one line: control characters, and bytes that are no UTF-8, are
/// escaped.
pub fn name(name: &OsStr) -> String {
    let mut shown = String::new();
    for chunk in name.as_bytes().utf8_chunks() {
        for letter in chunk.valid().chars() {
            if letter.is_control() {
                let mut bytes = [0; 4];
                escape_all(&mut shown, letter.encode_utf8(&mut bytes).as_bytes());
            } else {
                shown.push(letter);
            }
        }
        escape_all(&mut shown, chunk.invalid());
    }
    shown
}

/// A faulty line: tabs are shown as `\t`, since a doubled or a last one may be
/// the fault.
pub fn faulty_line(line: &[u8]) -> String {
    let mut shown = String::new();
    for &byte in line.iter().take(MOST_SHOWN) {
        match byte {
            b'\t' => shown.push_str("\\t"),
            b'\\' => shown.push_str("\\\\"),
            32..=126 => shown.push(char::from(byte)),
            _ => escape(&mut shown, byte),
        }
    }
    if line.len() > MOST_SHOWN {
        let _ = write!(shown, " … ({} bytes)", line.len());
    }
    shown
}

fn escape_all(shown: &mut String, bytes: &[u8]) {
    for &byte in bytes {
        escape(shown, byte);
    }
}

fn escape(shown: &mut String, byte: u8) {
    let _ = write!(shown, "\\x{byte:02x}");
}

#[cfg(test)]
mod tests {
    use super::*;

    #[test]
    fn names_are_shown_on_one_line() {
        assert_eq!(name(OsStr::new("procédures.table")), "procédures.table");
        assert_eq!(
            name(OsStr::from_bytes(b"a\n\x1b[1m\xe9z")),
            "a\\x0a\\x1b[1m\\xe9z"
        );
    }

    #[test]
    fn faults_are_seen_in_a_line() {
        assert_eq!(
            faulty_line(b"1\t0\tx\t\\\r\x80"),
            "1\\t0\\tx\\t\\\\\\x0d\\x80"
        );
        assert_eq!(faulty_line(b""), "");
    }

    #[test]
    fn a_long_line_is_cut() {
        assert_eq!(faulty_line(&[b'x'; 160]), "x".repeat(160));
        assert_eq!(
            faulty_line(&[b'x'; 161]),
            format!("{} … (161 bytes)", "x".repeat(160))
        );
    }
}
