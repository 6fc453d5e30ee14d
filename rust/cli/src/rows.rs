//! The lines of a readable table, for showing them.

use std::str;

/// A line of a table.
#[derive(Clone, Copy, Debug, PartialEq, Eq)]
pub struct Row<'a> {
    /// Which line it is, from 1 on.
    pub line: usize,
    pub number: u32,
    pub parent: u32,
    /// The line as it stands, without its LF.
    pub text: &'a str,
}

/// The rows of a table that was found readable; any other line is passed over.
pub fn rows(table: &[u8]) -> Vec<Row<'_>> {
    let lines = table.split(|&byte| byte == b'\n').enumerate();
    lines
        .filter_map(|(before, line)| row(before + 1, line))
        .collect()
}

fn row(line: usize, bytes: &[u8]) -> Option<Row<'_>> {
    let text = str::from_utf8(bytes).ok()?;
    let mut fields = text.split('\t');
    let number = fields.next()?.parse().ok()?;
    let parent = fields.next()?.parse().ok()?;
    Some(Row {
        line,
        number,
        parent,
        text,
    })
}

#[cfg(test)]
mod tests {
    use super::*;

    #[test]
    fn each_line_is_a_row() {
        let rows = rows(b"7\t0\ta\tb\n65535\t7\tc\n");
        assert_eq!(rows.len(), 2);
        let expected = Row {
            line: 2,
            number: 65_535,
            parent: 7,
            text: "65535\t7\tc",
        };
        assert_eq!(rows[1], expected);
        assert_eq!(rows[0].text, "7\t0\ta\tb");
    }

    #[test]
    fn the_empty_table_has_none() {
        assert_eq!(rows(b""), []);
    }
}
