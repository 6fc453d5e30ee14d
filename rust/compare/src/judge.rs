//! Runs both programs over a text and says how their answers differ.

use crate::calls::Calls;
use crate::case::{Answer, Case};
use crate::lent::Held;
use crate::met::{Codes, Given};
use crate::random::Random;
use crate::run::Judged;
use crate::tidying::{judge_tidy, Rooms};
use std::fmt::Write;

const SHOWN_BYTES: usize = 400;

impl Judged for Case {
    const NAMED: &'static str = "texts";

    fn judge(&self, calls: &dyn Calls, rooms: Rooms, random: &mut Random) -> Result<Given, String> {
        let held = Held::new(&self.text, random);
        let text = held.text();
        let check = judge_check(calls, text, self.expected)?;
        let numbers = numbers_to_ask(text, random);
        judge_content_places(calls, text, &numbers)?;
        judge_content(calls, text, numbers[0])?;
        let tidy = judge_tidy(calls, text, self, rooms, random)?;
        judge_text(text, &self.text)?;
        Ok(Given {
            check,
            tidy,
            ..Given::default()
        })
    }
}

/// The text is lent to be read alone.
pub fn judge_text(text: &[u8], before: &[u8]) -> Result<(), String> {
    if text == before {
        return Ok(());
    }
    Err("the text was changed\n".to_string() + &shown(before))
}

fn judge_check(calls: &dyn Calls, text: &[u8], expected: Option<Answer>) -> Result<Codes, String> {
    let proved = proved_answer(calls.check(text));
    let second = second_answer(second::check(text));
    if proved == second && expected.is_none_or(|expected| expected == second) {
        return Ok(Codes::only(second.code));
    }
    let mut report = format!("check\n  proved   {proved:?}\n  second   {second:?}\n");
    if let Some(expected) = expected {
        let _ = writeln!(report, "  expected {expected:?}");
    }
    Err(report + &shown(text))
}

fn proved_answer(checked: bridge::Checked) -> Answer {
    Answer {
        code: checked.code,
        line: checked.line,
        count: checked.count,
        depth: checked.depth,
    }
}

fn second_answer(checked: second::Checked) -> Answer {
    Answer {
        code: checked.code,
        line: checked.line,
        count: checked.count,
        depth: checked.depth,
    }
}

/// The second program's table is read once for all the numbers.
fn judge_content_places(calls: &dyn Calls, text: &[u8], numbers: &[u32]) -> Result<(), String> {
    let table = second::Table::read(text).ok();
    for &number in numbers {
        let proved = calls.content_place(text, number);
        let second = table
            .as_ref()
            .map_or(second::Part::default(), |table| table.content_place(number));
        if (proved.start, proved.length) != (second.start, second.length) {
            let report = format!("content of {number}\n  proved {proved:?}\n  second {second:?}\n");
            return Err(report + &shown(text));
        }
    }
    Ok(())
}

/// The part handed back is the caller's own bytes, at the place told. Asked
/// after `judge_content_places`, so the part is known to lie in the text.
fn judge_content(calls: &dyn Calls, text: &[u8], number: u32) -> Result<(), String> {
    let proved = calls.content(text, number);
    let second = second::content(text, number);
    if proved.as_ptr_range() == second.as_ptr_range() {
        return Ok(());
    }
    let place = |part: &[u8]| (part.as_ptr() as usize).wrapping_sub(text.as_ptr() as usize);
    let report = format!(
        "part of {number}\n  proved at {}, {} bytes\n  second at {}, {} bytes\n",
        place(proved),
        proved.len(),
        place(second),
        second.len(),
    );
    Err(report + &shown(text))
}

/// Numbers that stand in the text, if it is a table, with their neighbours and
/// those that only differ above 16 bits; then some that hardly do.
fn numbers_to_ask(text: &[u8], random: &mut Random) -> Vec<u32> {
    let mut starts = vec![0];
    starts.extend((1..text.len()).filter(|&place| text[place - 1] == b'\n'));
    let any = random.pick(&starts);
    let first = leading_digits(text, 0);
    let last = leading_digits(text, starts[starts.len() - 1]);
    let drawn = leading_digits(text, any);
    vec![
        drawn,
        first,
        last,
        drawn.wrapping_add(1),
        drawn.wrapping_add(65_536),
        random.number() % 65_536,
        0,
        65_535,
        65_536,
        u32::MAX,
    ]
}

fn leading_digits(text: &[u8], start: usize) -> u32 {
    text[start.min(text.len())..]
        .iter()
        .take_while(|byte| byte.is_ascii_digit())
        .fold(0, |value: u32, digit| {
            value.wrapping_mul(10).wrapping_add(u32::from(digit - b'0'))
        })
}

pub fn shown(text: &[u8]) -> String {
    let cut = &text[..text.len().min(SHOWN_BYTES)];
    let more = if cut.len() < text.len() { " ..." } else { "" };
    format!(
        "  text of {} bytes: \"{}\"{more}",
        text.len(),
        cut.escape_ascii()
    )
}
