//! Runs merge of both programs over three texts, with buffers of several
//! lengths, and looks at every byte lent.

use super::{rooms, Known, Triple};
use crate::calls::Calls;
use crate::judge::{judge_text, shown};
use crate::lent::{Held, Lent};
use crate::met::{Codes, Given};
use crate::random::Random;
use crate::run::Judged;
use crate::tidying::Rooms;
use second::{Merged, MergedBytes};
use std::fmt::Write;

/// What the second program has to say before there is a word of room.
pub type Wanted = Result<MergedBytes, Merged>;

/// What is told of a triple by the calls and the second program alike.
pub struct Told {
    pub codes: Codes,
    pub result: Wanted,
}

/// Codes from here on are given for tables that can all be read.
const LEAST_CODE_OF_READABLE: u32 = 21;

impl Judged for Triple {
    const NAMED: &'static str = "triples";

    fn judge(&self, calls: &dyn Calls, rooms: Rooms, random: &mut Random) -> Result<Given, String> {
        Ok(Given {
            merge: self.told(calls, rooms, random)?.codes,
            ..Given::default()
        })
    }
}

impl Triple {
    /// What is told of it, or what is different.
    pub fn told(
        &self,
        calls: &dyn Calls,
        rooms: Rooms,
        random: &mut Random,
    ) -> Result<Told, String> {
        let held = self.texts.each_ref().map(|text| Held::new(text, random));
        let texts = held.each_ref().map(Held::text);
        let told = judge_merge(calls, self, texts, rooms, random)
            .map_err(|report| report + &texts.map(shown).join("\n"))?;
        for (text, before) in texts.iter().zip(&self.texts) {
            judge_text(text, before)?;
        }
        Ok(told)
    }
}

fn judge_merge(
    calls: &dyn Calls,
    triple: &Triple,
    texts: [&[u8]; 3],
    rooms: Rooms,
    random: &mut Random,
) -> Result<Told, String> {
    let [old, first, second] = texts;
    let wanted = second::merged_bytes(old, &[first, second]);
    judge_known(triple, &wanted)?;
    let mut codes = Codes::default();
    for rooms in rooms::draw(rooms, needed(&wanted, texts), random) {
        codes.add(judge_in_rooms(
            calls, "merge", texts, rooms, &wanted, random,
        )?);
    }
    judge_swapped(calls, texts, &wanted, random)?;
    if let Ok(merged) = &wanted {
        judge_read_back(calls, merged, random)?;
    }
    Ok(Told {
        codes,
        result: wanted,
    })
}

/// The lengths of both buffers; for a refused merge some that would do.
fn needed(wanted: &Wanted, texts: [&[u8]; 3]) -> [usize; 2] {
    match wanted {
        Ok(merged) => [merged.table.len(), merged.ledger.len()],
        Err(_) => [texts[0].len(), 40],
    }
}

/// Where the maker of the triple knows the result, the second program must have
/// it.
fn judge_known(triple: &Triple, wanted: &Wanted) -> Result<(), String> {
    let same = match (&triple.known, wanted) {
        (None, _) => true,
        (Some(Known::Refused { code, table, place }), Err(refused)) => {
            (*code, *table, *place) == (refused.code, refused.table, refused.place)
        }
        (Some(Known::Merged { table, ledger }), Ok(merged)) => {
            *table == merged.table && *ledger == merged.ledger
        }
        _ => false,
    };
    if same {
        return Ok(());
    }
    let known = match &triple.known {
        Some(Known::Merged { table, ledger }) => told(table, ledger),
        refused => format!("{refused:?}"),
    };
    let second = match wanted {
        Ok(merged) => told(&merged.table, &merged.ledger),
        Err(refused) => format!("{refused:?}"),
    };
    Err(format!("merge\n  second   {second}\n  expected {known}\n"))
}

fn told(table: &[u8], ledger: &[u8]) -> String {
    let (table, ledger) = (table.escape_ascii(), ledger.escape_ascii());
    format!("\"{table}\" with \"{ledger}\"")
}

/// Both programs with such buffers: the code both answer, or what is different.
fn judge_in_rooms(
    calls: &dyn Calls,
    call: &str,
    texts: [&[u8]; 3],
    rooms: [usize; 2],
    wanted: &Wanted,
    random: &mut Random,
) -> Result<u32, String> {
    let [mut table, mut ledger] = rooms.map(|room| Lent::new(room, random));
    let (mut other_table, mut other_ledger) = (table.clone(), ledger.clone());
    let proved = calls.merge(texts, table.buffer(), ledger.buffer());
    let wanted = match wanted {
        Ok(merged) => merged.put(other_table.buffer(), other_ledger.buffer()),
        Err(refused) => *refused,
    };
    let table_wrong = table.first_unlike(&other_table);
    let ledger_wrong = ledger.first_unlike(&other_ledger);
    if answer(proved) == wanted && table_wrong.is_none() && ledger_wrong.is_none() {
        return Ok(wanted.code);
    }
    let mut report = format!("{call} with rooms {rooms:?}\n  proved {proved:?}\n");
    let _ = writeln!(report, "  second {wanted:?}");
    for (buffer, wrong) in [("table", table_wrong), ("ledger", ledger_wrong)] {
        if let Some(wrong) = wrong {
            let _ = writeln!(report, "  {buffer}: {wrong}");
        }
    }
    Err(report)
}

fn answer(merged: bridge::Merged) -> Merged {
    Merged {
        code: merged.code,
        table: merged.table,
        place: merged.place,
        table_length: merged.table_length,
        ledger_length: merged.ledger_length,
    }
}

/// With the desks swapped, readable tables have the same result but for their
/// marks in the ledger.
fn judge_swapped(
    calls: &dyn Calls,
    [old, first, second]: [&[u8]; 3],
    wanted: &Wanted,
    random: &mut Random,
) -> Result<(), String> {
    let swapped = match wanted {
        Ok(merged) => Ok(MergedBytes {
            table: merged.table.clone(),
            ledger: traded(&merged.ledger),
        }),
        Err(refused) if refused.code < LEAST_CODE_OF_READABLE => return Ok(()),
        Err(refused) => Err(*refused),
    };
    let texts = [old, second, first];
    let rooms = needed(wanted, texts);
    judge_in_rooms(
        calls,
        "merge, the desks swapped,",
        texts,
        rooms,
        &swapped,
        random,
    )?;
    Ok(())
}

/// The ledger with the origins 1 and 2 in each other's place.
fn traded(ledger: &[u8]) -> Vec<u8> {
    let mut lines = Vec::with_capacity(ledger.len());
    for line in ledger.split_inclusive(|&byte| byte == b'\n') {
        let start = lines.len();
        lines.extend(line);
        let tab = line.iter().position(|&byte| byte == b'\t').unwrap_or(0);
        if line.starts_with(b"total") {
            continue;
        }
        let origin = &mut lines[start + tab + 1];
        *origin = match *origin {
            b'1' => b'2',
            b'2' => b'1',
            other => other,
        };
    }
    lines
}

/// The merged table can be read, and is its own written form.
fn judge_read_back(
    calls: &dyn Calls,
    merged: &MergedBytes,
    random: &mut Random,
) -> Result<(), String> {
    let mut lent = Lent::new(merged.table.len(), random);
    let tidied = calls.tidy(&merged.table, lent.buffer());
    let told = (tidied.code, tidied.length);
    match lent.first_wrong(&merged.table) {
        None if told == (0, merged.table.len()) => Ok(()),
        wrong => Err(format!(
            "tidy of the merged table\n  proved {tidied:?}, {wrong:?}\n"
        )),
    }
}

#[cfg(test)]
mod tests {
    use super::traded;

    #[test]
    fn marks_trade_places() {
        let ledger = b"1\t0\t1\n22\t1\t2\n2\t2\t12\n1\t3\t1\ntotal\t4\t16\n";
        let other = b"1\t0\t1\n22\t2\t2\n2\t1\t12\n1\t3\t1\ntotal\t4\t16\n";
        assert_eq!(traded(ledger), other);
        assert_eq!(traded(other), ledger);
        assert_eq!(traded(b"total\t1\t2\n"), b"total\t1\t2\n");
    }
}
