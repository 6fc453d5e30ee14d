//! One table in memory: number to line, and for each line its record with its
//! neighbours, all told by their record numbers.

use super::reading::{read_lines, Refusal};
use super::NUMBERS;
use second::MOST_LINES;

/// Lines of a table, the top's among them.
pub const LINES: usize = MOST_LINES + 1;

/// What stands on one line. 0 is the top for a parent, START for a forerunner
/// and for the last of no children, END for a follower and for the first of none.
#[derive(Clone, Copy, Default)]
pub struct Line {
    pub number: u16,
    pub parent: u16,
    pub forerunner: u16,
    pub follower: u16,
    pub first: u16,
    pub last: u16,
    /// Where the content starts in the text.
    pub content: u16,
    /// Of the content.
    pub length: u16,
}

pub struct Links {
    /// 0 for a number that is absent, and for the top.
    line_of: [u16; NUMBERS],
    /// Line 0 is the top's.
    lines: [Line; LINES],
    count: usize,
}

impl Links {
    pub const EMPTY: Links = Links {
        line_of: [0; NUMBERS],
        lines: [Line {
            number: 0,
            parent: 0,
            forerunner: 0,
            follower: 0,
            first: 0,
            last: 0,
            content: 0,
            length: 0,
        }; LINES],
        count: 0,
    };

    /// Into links that are empty.
    pub fn read(&mut self, text: &[u8]) -> Result<(), Refusal> {
        let lines = &mut self.lines;
        // The line of each parent's last child.
        let mut last_line = [0_u16; LINES];
        let keep = |line: u16, above: u16, good: &super::line::GoodLine| {
            let before_line = std::mem::replace(&mut last_line[usize::from(above)], line);
            let forerunner = std::mem::replace(&mut lines[usize::from(above)].last, good.number);
            if forerunner == 0 {
                lines[usize::from(above)].first = good.number;
            } else {
                lines[usize::from(before_line)].follower = good.number;
            }
            lines[usize::from(line)] = Line {
                number: good.number,
                parent: good.parent,
                forerunner,
                content: good.content as u16,
                length: (good.next - good.content - 1) as u16,
                ..Line::default()
            };
        };
        self.count = read_lines(text, &mut self.line_of, keep)?;
        Ok(())
    }

    /// The top's line first.
    pub fn lines(&self) -> &[Line] {
        &self.lines[..=self.count]
    }

    #[inline(always)]
    pub fn line(&self, line: u16) -> &Line {
        &self.lines[usize::from(line)]
    }

    #[inline(always)]
    pub fn line_of(&self, number: u16) -> u16 {
        self.line_of[usize::from(number)]
    }

    /// A record has a list, and so has the top.
    #[inline(always)]
    pub fn has_list(number: u16, line: u16) -> bool {
        number == 0 || line != 0
    }
}

impl Line {
    #[inline(always)]
    pub fn content<'t>(&self, text: &'t [u8]) -> &'t [u8] {
        let start = usize::from(self.content);
        &text[start..start + usize::from(self.length)]
    }
}
