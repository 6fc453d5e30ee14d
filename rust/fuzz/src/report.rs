//! A difference as it is shown and written to a file.

use crate::features::Texts;
use compare::calls::Calls;
use std::fmt::Write;
use std::fs;
use std::io;
use std::path::{Path, PathBuf};

#[derive(Debug)]
pub struct Difference {
    pub seed: u64,
    pub round: u64,
    /// Made smaller.
    pub texts: Texts,
    /// What is different, with the rooms that showed it.
    pub said: String,
}

/// Those of the demonstration.
const TABLE_ROOM: usize = 32_768;
const LEDGER_ROOM: usize = 8_192;

impl Difference {
    /// What was said, the three texts whole, and what each program answers with
    /// room to spare.
    pub fn shown(&self, calls: &dyn Calls) -> String {
        let mut shown = format!("seed {}, round {}\n{}\n", self.seed, self.round, self.said);
        for (name, text) in ["old", "first", "second"].iter().zip(&self.texts) {
            let _ = writeln!(shown, "{name:7}b\"{}\"", text.escape_ascii());
        }
        let texts = self.texts.each_ref().map(Vec::as_slice);
        let [old, first, second] = texts;
        let proved = with_buffers(|table, ledger| {
            let told = calls.merge(texts, table, ledger);
            (format!("{told:?}"), [told.table_length, told.ledger_length])
        });
        let second = with_buffers(|table, ledger| {
            let told = second::merge(old, first, second, table, ledger);
            (format!("{told:?}"), [told.table_length, told.ledger_length])
        });
        shown + "merge, proved: " + &proved + "merge, second: " + &second
    }

    /// To a file of its own. Its path.
    pub fn write(&self, directory: &Path, shown: &str) -> io::Result<PathBuf> {
        fs::create_dir_all(directory)?;
        let path = directory.join(format!("{}-{}.txt", self.seed, self.round));
        fs::write(&path, shown)?;
        path.canonicalize()
    }
}

/// The numbers told, and as many bytes of the buffers as these say.
fn with_buffers(merge: impl Fn(&mut [u8], &mut [u8]) -> (String, [usize; 2])) -> String {
    let (mut table, mut ledger) = (vec![b'.'; TABLE_ROOM], vec![b'.'; LEDGER_ROOM]);
    let (told, [table_length, ledger_length]) = merge(&mut table, &mut ledger);
    format!(
        "{told}\n  table  b\"{}\"\n  ledger b\"{}\"\n",
        table[..table_length.min(TABLE_ROOM)].escape_ascii(),
        ledger[..ledger_length.min(LEDGER_ROOM)].escape_ascii()
    )
}
