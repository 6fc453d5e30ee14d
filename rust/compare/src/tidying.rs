//! Runs tidy of both programs over a text, with buffers of several lengths, and
//! looks at every byte lent.

use crate::calls::Calls;
use crate::case::Case;
use crate::judge::shown;
use crate::lent::Lent;
use crate::met::Codes;
use crate::random::Random;
use second::Tidied;
use std::fmt::Write;

/// Which lengths of buffer a call is tried with.
#[derive(Clone, Copy, Debug)]
pub enum Rooms {
    /// Exactly enough.
    One,
    /// Some that are enough and some that are too short.
    Few,
    /// None at all, any that is too short, one byte short, exact, some more,
    /// and large.
    Many,
}

impl Rooms {
    /// For a table that takes so many bytes.
    fn draw(self, needed: usize, random: &mut Random) -> Vec<usize> {
        let short = random.below(needed.max(1));
        let one_short = needed.saturating_sub(1);
        match self {
            Rooms::One => vec![needed],
            Rooms::Few => vec![
                needed + random.pick(&[0, 0, 1, 100]),
                random.pick(&[short, one_short]),
            ],
            Rooms::Many => vec![
                0,
                short,
                one_short,
                needed,
                needed + random.between(1, 300),
                // Among them those that are 0 and 1 in 16 bits.
                random.pick(&[32_768, 65_536, 65_537, 100_000]),
            ],
        }
    }
}

/// The codes both give, or what is different. The text is the case's own, held
/// somewhere else.
pub fn judge_tidy(
    calls: &dyn Calls,
    text: &[u8],
    case: &Case,
    rooms: Rooms,
    random: &mut Random,
) -> Result<Codes, String> {
    let mut codes = Codes::default();
    let mut written = None;
    // The written form has the lines of the text, so as many bytes.
    for room in rooms.draw(text.len(), random) {
        let second = second::tidy(text, room);
        judge_known(text, case, room, &second)?;
        judge_proved(calls, "tidy", text, room, &second, random)?;
        codes.add(second.code);
        if second.code == 0 {
            written = Some(second);
        }
    }
    if let Some(written) = written {
        // What was written is the written form of itself.
        let room = written.length + random.pick(&[0, 0, 1, 100]);
        judge_proved(calls, "tidy again", &written.bytes, room, &written, random)?;
    }
    Ok(codes)
}

/// Where the maker of the text knows the answer, the second program must give
/// it.
fn judge_known(text: &[u8], case: &Case, room: usize, second: &Tidied) -> Result<(), String> {
    let Some(known) = known(case, room).filter(|known| known != second) else {
        return Ok(());
    };
    let same = second.bytes.iter().zip(&known.bytes);
    Err(format!(
        "tidy with room {room}\n  second   {}\n  expected {}\n  same for {} bytes\n{}",
        numbers(second),
        numbers(&known),
        same.take_while(|(one, other)| one == other).count(),
        shown(text)
    ))
}

fn known(case: &Case, room: usize) -> Option<Tidied> {
    let refused = case.expected.filter(|expected| expected.code != 0);
    if let Some(refused) = refused {
        return Some(Tidied {
            code: refused.code,
            line: refused.line,
            ..Tidied::default()
        });
    }
    let written = case.written.as_ref()?;
    let fits = written.len() <= room;
    Some(Tidied {
        code: if fits { 0 } else { 31 },
        line: 0,
        length: written.len(),
        bytes: if fits { written.clone() } else { Vec::new() },
    })
}

/// The proved call must answer what is wanted, write its bytes and leave all
/// others.
fn judge_proved(
    calls: &dyn Calls,
    call: &str,
    text: &[u8],
    room: usize,
    wanted: &Tidied,
    random: &mut Random,
) -> Result<(), String> {
    let mut lent = Lent::new(room, random);
    let proved = calls.tidy(text, lent.buffer());
    let answers = (proved.code, proved.line, proved.length);
    let wrong = lent.first_wrong(&wanted.bytes);
    if answers == (wanted.code, wanted.line, wanted.length) && wrong.is_none() {
        return Ok(());
    }
    let mut report = format!("{call} with room {room}\n  proved {proved:?}\n");
    let _ = writeln!(report, "  wanted {}", numbers(wanted));
    if let Some(wrong) = wrong {
        let _ = writeln!(report, "  {wrong}");
    }
    Err(report + &shown(text))
}

fn numbers(tidied: &Tidied) -> String {
    let Tidied {
        code, line, length, ..
    } = tidied;
    format!("Tidied {{ code: {code}, line: {line}, length: {length} }}")
}
