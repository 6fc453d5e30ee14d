//! Reads a table line by line. What is kept of a line is the caller's matter.

use super::line::{code_of_line, good_line, GoodLine};
use super::{unended_line, LF, NUMBERS};
use second::{MOST_BYTES, MOST_LINES};

/// Why a table is refused.
pub struct Refusal {
    pub code: u32,
    pub line: u32,
}

/// Hands each line on, with its own number and that of its parent's line, which
/// is 0 for the top. `line_of` is all zeros before, and tells the line of each
/// number afterwards. Answers how many lines there are.
#[inline(always)]
pub fn read_lines(
    text: &[u8],
    line_of: &mut [u16; NUMBERS],
    mut keep: impl FnMut(u16, u16, &GoodLine),
) -> Result<usize, Refusal> {
    whole_text(text)?;
    let mut line = 0;
    let mut place = 0;
    while place < text.len() {
        line += 1;
        if line > MOST_LINES {
            return refuse(3, line);
        }
        let Some(good) = good_line(text, place) else {
            return refuse(code_of_line(&text[place..]), line);
        };
        if line_of[usize::from(good.number)] != 0 {
            return refuse(9, line);
        }
        let above = line_of[usize::from(good.parent)];
        if above == 0 && good.parent != 0 {
            return refuse(10, line);
        }
        line_of[usize::from(good.number)] = line as u16;
        keep(line as u16, above, &good);
        place = good.next;
    }
    Ok(line)
}

fn whole_text(text: &[u8]) -> Result<(), Refusal> {
    if text.len() > MOST_BYTES {
        return refuse(1, 0);
    }
    match text.last() {
        None | Some(&LF) => Ok(()),
        Some(_) => refuse(2, unended_line(text) as usize),
    }
}

#[cold]
fn refuse<T>(code: u32, line: usize) -> Result<T, Refusal> {
    Err(Refusal {
        code,
        line: line as u32,
    })
}
