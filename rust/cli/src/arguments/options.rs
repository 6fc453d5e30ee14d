//! Options among the operands.

use std::ffi::{OsStr, OsString};
use std::os::unix::ffi::OsStrExt;

use crate::ends::End;
use crate::shown;

/// The words with the options told apart.
pub enum Scanned {
    Help,
    Version,
    Words(Vec<OsString>, Options),
}

/// The options that were given, each taken out by the command that it is for.
#[derive(Default)]
pub struct Options {
    pub table: Option<OsString>,
    pub ledger: Option<OsString>,
    pub name: Option<OsString>,
    pub quiet: bool,
}

/// Tells options and operands apart, up to a word that asks for help or version.
pub fn scan(mut words: impl Iterator<Item = OsString>) -> Result<Scanned, End> {
    let (mut operands, mut options) = (Vec::new(), Options::default());
    while let Some(word) = words.next() {
        match word.as_bytes() {
            b"--" => operands.extend(words.by_ref()),
            b"-q" | b"--quiet" => options.quiet = true,
            b"-h" | b"--help" => return Ok(Scanned::Help),
            b"-V" | b"--version" => return Ok(Scanned::Version),
            [b'-', _, ..] => options.take_value(&word, &mut words)?,
            _ => operands.push(word),
        }
    }
    Ok(Scanned::Words(operands, options))
}

impl Options {
    /// An option with a value, which stands behind `=` or is the next word.
    fn take_value(
        &mut self,
        word: &OsStr,
        words: &mut impl Iterator<Item = OsString>,
    ) -> Result<(), End> {
        let (option, value) = parted(word);
        let place = match option {
            b"--table" => &mut self.table,
            b"--ledger" => &mut self.ledger,
            b"--name" => &mut self.name,
            _ => return Err(about("unknown option", word.as_bytes(), "")),
        };
        let value = value.map(OsStr::to_os_string).or_else(|| words.next());
        let Some(value) = value.filter(|value| !value.is_empty()) else {
            return Err(about("option", option, " needs a name behind it"));
        };
        if place.replace(value).is_some() {
            return Err(about("option", option, " is given twice"));
        }
        Ok(())
    }

    /// No option is left that the command has no use for.
    pub fn all_taken(&self) -> Result<(), End> {
        let left = [
            (&self.table, "--table"),
            (&self.ledger, "--ledger"),
            (&self.name, "--name"),
        ];
        match left.iter().find(|(value, _)| value.is_some()) {
            Some((_, option)) => {
                let option = option.as_bytes();
                Err(about("option", option, " is not for this command"))
            }
            None => Ok(()),
        }
    }
}

fn parted(word: &OsStr) -> (&[u8], Option<&OsStr>) {
    let bytes = word.as_bytes();
    match bytes.iter().position(|&byte| byte == b'=') {
        Some(end) => (&bytes[..end], Some(OsStr::from_bytes(&bytes[end + 1..]))),
        None => (bytes, None),
    }
}

fn about(what: &str, option: &[u8], fault: &str) -> End {
    let option = shown::name(OsStr::from_bytes(option));
    End::usage(format!("{what} '{option}'{fault}"))
}
