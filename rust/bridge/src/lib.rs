//! Safe calls to the proved library: check, tidy and merge tables, and find the
//! content of a record. Every call takes any bytes and asks nothing of its
//! caller; what a call answers is proved to be what document 01 says.
//!
//! All the unsafe code of the workspace is in this crate. `rust/staticlib` must
//! have written the library that it links.
//!
//! A merge of document 01's demonstration, and what can be asked of the merged
//! table then:
//!
//! ```
//! let old = b"1\t0\tairport\tid=XQAA\n\
//!             2\t1\thold\tfix=TARNO\tturn=L\n\
//!             3\t1\tnote\ttext=old\n";
//! let first = b"1\t0\tairport\tid=XQAA\n\
//!               2\t1\thold\tfix=TARNO\tturn=L\n\
//!               3\t1\tnote\ttext=new\n";
//! let second = b"1\t0\tairport\tid=XQAA\n\
//!                2\t1\thold\tfix=TARNO\tturn=L\n\
//!                4\t1\thold\tfix=BELIN\tturn=R\n\
//!                3\t1\tnote\ttext=old\n";
//!
//! // So much room is always enough.
//! let (mut table, mut ledger) = (vec![0; 32_768], vec![0; 8_192]);
//! let merged = bridge::merge(old, first, second, &mut table, &mut ledger);
//! assert_eq!((merged.code, merged.table, merged.place), (0, 0, 0));
//!
//! let table = &table[..merged.table_length];
//! let ledger = &ledger[..merged.ledger_length];
//! assert_eq!(
//!     table,
//!     b"1\t0\tairport\tid=XQAA\n\
//!       2\t1\thold\tfix=TARNO\tturn=L\n\
//!       4\t1\thold\tfix=BELIN\tturn=R\n\
//!       3\t1\tnote\ttext=new\n"
//! );
//! // Record 4 is second's, the note is first's.
//! assert_eq!(ledger, b"1\t0\t15\n2\t0\t21\n4\t2\t21\n3\t1\t13\ntotal\t4\t70\n");
//!
//! let checked = bridge::check(table);
//! assert_eq!((checked.code, checked.count, checked.depth), (0, 4, 2));
//! assert_eq!(bridge::content(table, 4), b"hold\tfix=BELIN\tturn=R");
//! ```
//!
//! # Stack
//!
//! The library borrows no memory but the stack. It takes 167 KB for a call on one
//! table, for [`tidy`] up to 214 KB, and for [`merge`] 663 to 712 KB.
//! `docs/PROMISES.md` says how that was measured, and `tests/stack.rs` tries it. A
//! thread of Rust's own has 2 MB unless it is told otherwise.

#![warn(missing_docs)]

mod library;

/// The answer of check. `line` is 0 when accepted; `count` and `depth` are 0
/// when refused.
#[repr(C)]
#[derive(Clone, Copy, Debug, PartialEq, Eq)]
pub struct Checked {
    /// 0 when accepted, else 1 to 10.
    pub code: u32,
    /// The line the code is given for.
    pub line: u32,
    /// How many records the table has.
    pub count: usize,
    /// The greatest depth of a record.
    pub depth: usize,
}

/// The answer of tidy.
#[repr(C)]
#[derive(Clone, Copy, Debug, PartialEq, Eq)]
pub struct Tidied {
    /// 0 when accepted, 1 to 10 for a refused table, 31 for a buffer that is
    /// too short.
    pub code: u32,
    /// The line the code is given for; 0 for codes 0, 1 and 31.
    pub line: u32,
    /// How many bytes were written. On code 31 how many are needed, on any
    /// other refusal 0.
    pub length: usize,
}

/// The answer of merge.
#[repr(C)]
#[derive(Clone, Copy, Debug, PartialEq, Eq)]
pub struct Merged {
    /// 0 when accepted, 1 to 10 for a refused table, 21 to 26 for tables that
    /// do not merge, 31 and 32 for a table or ledger buffer that is too short.
    pub code: u32,
    /// The refused table: 1 old, 2 first, 3 second; 0 with every other code.
    pub table: u32,
    /// The line, record or parent the code is given for.
    pub place: u32,
    /// How many bytes of the table were written. On codes 31 and 32 how many
    /// are needed, on any other refusal 0.
    pub table_length: usize,
    /// The same of the ledger.
    pub ledger_length: usize,
}

/// A part of the lent text.
#[repr(C)]
#[derive(Clone, Copy, Debug, PartialEq, Eq)]
pub struct Part {
    /// Where the part starts in the text.
    pub start: usize,
    /// How many bytes it has.
    pub length: usize,
}

/// Checks one table.
///
/// ```
/// let checked = bridge::check(b"1\t0\troute\n2\t1\thold\n");
/// assert_eq!((checked.code, checked.line), (0, 0));
/// assert_eq!((checked.count, checked.depth), (2, 2));
///
/// // Record 7 stands on no earlier line.
/// let checked = bridge::check(b"1\t0\troute\n2\t7\thold\n");
/// assert_eq!((checked.code, checked.line), (10, 2));
/// assert_eq!((checked.count, checked.depth), (0, 0));
/// ```
pub fn check(text: &[u8]) -> Checked {
    library::check(text)
}

/// Writes the table to the buffer in its written form: each record, then its
/// children in order, each with all below it.
///
/// Accepted, the form is the buffer's first `length` bytes and the bytes past it
/// stay. Refused, all of the buffer stays.
///
/// ```
/// let text = b"1\t0\troute\n2\t0\tnote\n3\t1\thold\n";
/// let mut buffer = [b'.'; 30];
/// let tidied = bridge::tidy(text, &mut buffer);
/// assert_eq!((tidied.code, tidied.line, tidied.length), (0, 0, 28));
/// assert_eq!(&buffer, b"1\t0\troute\n3\t1\thold\n2\t0\tnote\n..");
///
/// let tidied = bridge::tidy(text, &mut buffer[..27]);
/// assert_eq!((tidied.code, tidied.line, tidied.length), (31, 0, 28));
/// ```
pub fn tidy(text: &[u8], buffer: &mut [u8]) -> Tidied {
    library::tidy(text, buffer)
}

/// Where in the text the number's content stands; the empty part at the start
/// of the text for a refused table or an absent number.
///
/// ```
/// let part = bridge::content_place(b"1\t0\troute\n2\t1\thold\n", 2);
/// assert_eq!((part.start, part.length), (14, 4));
/// ```
pub fn content_place(text: &[u8], number: u32) -> Part {
    library::content(text, number)
}

/// The part of the text that holds the number's content; the empty part at the
/// start of the text for a refused table or an absent number.
///
/// ```
/// let text = b"1\t0\troute\n2\t1\thold\tturn=L\n";
/// assert_eq!(bridge::content(text, 2), b"hold\tturn=L");
/// // The caller's own bytes, not a copy of them.
/// assert_eq!(bridge::content(text, 2).as_ptr(), text[14..].as_ptr());
/// assert_eq!(bridge::content(text, 3), b"");
/// assert_eq!(bridge::content(b"2\t1\thold\n", 2), b"");
/// ```
pub fn content(text: &[u8], number: u32) -> &[u8] {
    let Part { start, length } = content_place(text, number);
    &text[start..][..length]
}

/// Merges the edits of first and second into the old table, and writes the
/// merged table and its ledger to the two buffers.
///
/// Accepted, each buffer is written from byte 0 on and the bytes past its length
/// stay. Refused, all of both buffers stays.
///
/// ```
/// let old = b"1\t0\tairport\tid=XQAA\n\
///             2\t1\thold\tfix=TARNO\tturn=L\n\
///             3\t1\tnote\ttext=old\n";
/// let first = b"1\t0\tairport\tid=XQAA\n\
///               2\t1\thold\tfix=TARNO\tturn=L\n\
///               3\t1\tnote\ttext=new\n";
/// let second = b"1\t0\tairport\tid=XQAA\n\
///                2\t1\thold\tfix=TARNO\tturn=L\n\
///                4\t1\thold\tfix=BELIN\tturn=R\n\
///                3\t1\tnote\ttext=old\n";
/// let (mut table, mut ledger) = ([b'.'; 32_768], [b'.'; 8_192]);
/// let merged = bridge::merge(old, first, second, &mut table, &mut ledger);
/// assert_eq!((merged.code, merged.table, merged.place), (0, 0, 0));
/// assert_eq!((merged.table_length, merged.ledger_length), (90, 39));
/// assert_eq!(
///     &table[..92],
///     b"1\t0\tairport\tid=XQAA\n\
///       2\t1\thold\tfix=TARNO\tturn=L\n\
///       4\t1\thold\tfix=BELIN\tturn=R\n\
///       3\t1\tnote\ttext=new\n.."
/// );
/// assert_eq!(
///     &ledger[..41],
///     b"1\t0\t15\n2\t0\t21\n4\t2\t21\n3\t1\t13\ntotal\t4\t70\n.."
/// );
///
/// let merged = bridge::merge(old, first, second, &mut table[..89], &mut ledger);
/// assert_eq!((merged.code, merged.table_length), (31, 90));
/// ```
pub fn merge(
    old: &[u8],
    first: &[u8],
    second: &[u8],
    table: &mut [u8],
    ledger: &mut [u8],
) -> Merged {
    library::merge([old, first, second], [table, ledger])
}

#[cfg(test)]
mod tests {
    use super::*;

    const TABLE: &[u8] = b"1\t0\tairport\tid=XQAA\n2\t1\thold\n9\t1\tnote\n";

    #[test]
    fn answers_stand_in_their_members() {
        let accepted = Checked {
            code: 0,
            line: 0,
            count: 3,
            depth: 2,
        };
        assert_eq!(check(TABLE), accepted);
        let refused = Checked {
            code: 10,
            line: 2,
            count: 0,
            depth: 0,
        };
        assert_eq!(check(b"1\t0\tx\n2\t7\tx\n"), refused);
    }

    fn tidied(code: u32, line: u32, length: usize) -> Tidied {
        Tidied { code, line, length }
    }

    #[test]
    fn the_written_form_is_in_the_buffer() {
        let text = b"1\t0\ta\n2\t0\tb\n3\t1\tc\n";
        let mut buffer = [b'.'; 20];
        assert_eq!(tidy(text, &mut buffer), tidied(0, 0, 18));
        assert_eq!(&buffer, b"1\t0\ta\n3\t1\tc\n2\t0\tb\n..");
    }

    #[test]
    fn a_refusal_leaves_the_buffer() {
        let mut buffer = [b'.'; 37];
        assert_eq!(tidy(TABLE, &mut buffer), tidied(31, 0, TABLE.len()));
        let unknown_parent = b"1\t0\tx\n2\t7\tx\n";
        assert_eq!(tidy(unknown_parent, &mut buffer), tidied(10, 2, 0));
        assert_eq!(buffer, [b'.'; 37]);
    }

    #[test]
    fn contents_are_cut_from_the_text() {
        let place = content_place(TABLE, 2);
        assert_eq!((place.start, place.length), (24, 4));
        assert_eq!(content(TABLE, 1), b"airport\tid=XQAA");
        assert_eq!(content(TABLE, 2).as_ptr(), TABLE[24..].as_ptr());
        assert_eq!(content(TABLE, 65_538), b"");
        assert_eq!(content(TABLE, 3).as_ptr(), TABLE.as_ptr());
    }

    #[test]
    fn empty_text() {
        let empty = Checked {
            code: 0,
            line: 0,
            count: 0,
            depth: 0,
        };
        assert_eq!(check(b""), empty);
        assert_eq!(check(&Vec::new()), empty);
        assert_eq!(content(b"", 1), b"");
        assert_eq!(tidy(b"", &mut []), tidied(0, 0, 0));
        assert_eq!(tidy(&Vec::new(), &mut Vec::new()), tidied(0, 0, 0));
    }
    fn merged(code: u32, table: u32, place: u32, lengths: [usize; 2]) -> Merged {
        Merged {
            code,
            table,
            place,
            table_length: lengths[0],
            ledger_length: lengths[1],
        }
    }

    const OLD: &[u8] = b"1\t0\ta\n";
    const FIRST: &[u8] = b"1\t0\tb\n";
    const SECOND: &[u8] = b"1\t0\ta\n2\t1\tc\n";

    #[test]
    fn the_merged_table_and_the_ledger_are_in_their_buffers() {
        let (mut table, mut ledger) = ([b'.'; 14], [b'.'; 25]);
        let answer = merge(OLD, FIRST, SECOND, &mut table, &mut ledger);
        assert_eq!(answer, merged(0, 0, 0, [12, 22]));
        assert_eq!(&table, b"1\t0\tb\n2\t1\tc\n..");
        assert_eq!(&ledger, b"1\t1\t1\n2\t2\t1\ntotal\t2\t2\n...");
    }

    #[test]
    fn a_refused_merge_leaves_both_buffers() {
        let (mut table, mut ledger) = ([b'.'; 12], [b'.'; 22]);
        let mut told = |texts: [&[u8]; 3], table_room: usize, ledger_room: usize| {
            let [old, first, second] = texts;
            let (table, ledger) = (&mut table[..table_room], &mut ledger[..ledger_room]);
            merge(old, first, second, table, ledger)
        };
        let texts = [OLD, FIRST, SECOND];
        assert_eq!(told(texts, 11, 22), merged(31, 0, 0, [12, 22]));
        assert_eq!(told(texts, 12, 21), merged(32, 0, 0, [12, 22]));
        assert_eq!(told(texts, 0, 0), merged(31, 0, 0, [12, 22]));
        let other: &[u8] = b"1\t0\tc\n";
        assert_eq!(told([OLD, FIRST, other], 12, 22), merged(21, 0, 1, [0, 0]));
        let refused: &[u8] = b"1\t0\tx\n2\t7\tx\n";
        assert_eq!(told([refused; 3], 12, 22), merged(10, 1, 2, [0, 0]));
        assert_eq!(told([OLD, refused, OLD], 12, 22), merged(10, 2, 2, [0, 0]));
        assert_eq!(told([OLD, OLD, refused], 12, 22), merged(10, 3, 2, [0, 0]));
        assert_eq!((table, ledger), ([b'.'; 12], [b'.'; 22]));
    }

    #[test]
    fn empty_tables_merge() {
        let mut ledger = [b'.'; 11];
        let answer = merge(b"", b"", b"", &mut [], &mut ledger);
        assert_eq!(answer, merged(0, 0, 0, [0, 10]));
        assert_eq!(&ledger, b"total\t0\t0\n.");
        let answer = merge(b"", b"", b"", &mut [], &mut []);
        assert_eq!(answer, merged(32, 0, 0, [0, 10]));
    }
}
