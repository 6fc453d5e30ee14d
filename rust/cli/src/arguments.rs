//! The words of the command line, and what they ask for.

mod options;

use std::ffi::{OsStr, OsString};
use std::os::unix::ffi::OsStrExt;

use crate::ends::End;
use crate::shown;
use crate::sources::Source;
use crate::targets::Target;
use options::{Options, Scanned};

/// What the words ask for.
#[derive(Debug, PartialEq, Eq)]
pub enum Asked {
    Help,
    Version,
    Run { command: Command, quiet: bool },
}

/// A command with its files.
#[derive(Debug, PartialEq, Eq)]
pub enum Command {
    Merge(Merge),
    Check(Vec<Source>),
    Tidy { file: Source, table: Target },
    Content { file: Source, number: u32 },
}

/// The files of a merge.
#[derive(Debug, PartialEq, Eq)]
pub struct Merge {
    /// Old, first and second.
    pub tables: [Source; 3],
    pub table: Target,
    pub ledger: Option<Target>,
    /// What the words call the three tables, instead of their files.
    pub name: Option<OsString>,
}

/// Reads the words behind the program's name.
pub fn parse(words: impl Iterator<Item = OsString>) -> Result<Asked, End> {
    match options::scan(words)? {
        Scanned::Help => Ok(Asked::Help),
        Scanned::Version => Ok(Asked::Version),
        Scanned::Words(operands, mut options) => {
            let command = command(operands, &mut options)?;
            options.all_taken()?;
            let quiet = options.quiet;
            Ok(Asked::Run { command, quiet })
        }
    }
}

/// The first operand is the command, the others are its own.
fn command(operands: Vec<OsString>, options: &mut Options) -> Result<Command, End> {
    let mut operands = operands.into_iter();
    let Some(name) = operands.next() else {
        return Err(End::usage("no command given"));
    };
    let operands: Vec<OsString> = operands.collect();
    match name.as_bytes() {
        b"merge" => merge(operands, options),
        b"check" => check(operands),
        b"tidy" => tidy(operands, options),
        b"content" => content(operands),
        _ => Err(End::usage(format!(
            "unknown command '{}'",
            shown::name(&name)
        ))),
    }
}

fn merge(operands: Vec<OsString>, options: &mut Options) -> Result<Command, End> {
    let tables: [OsString; 3] = operands
        .try_into()
        .map_err(|_| End::usage("merge takes three tables: OLD FIRST SECOND"))?;
    let tables = tables.map(Source::from);
    standard_input_once(&tables)?;
    Ok(Command::Merge(Merge {
        tables,
        table: table_target(options),
        ledger: options.ledger.take().map(Target::from),
        name: options.name.take(),
    }))
}

fn check(operands: Vec<OsString>) -> Result<Command, End> {
    if operands.is_empty() {
        return Err(End::usage("check takes one table or more: FILE..."));
    }
    let files: Vec<Source> = operands.into_iter().map(Source::from).collect();
    standard_input_once(&files)?;
    Ok(Command::Check(files))
}

fn tidy(operands: Vec<OsString>, options: &mut Options) -> Result<Command, End> {
    let [file]: [OsString; 1] = operands
        .try_into()
        .map_err(|_| End::usage("tidy takes one table: FILE"))?;
    let (file, table) = (file.into(), table_target(options));
    Ok(Command::Tidy { file, table })
}

fn content(operands: Vec<OsString>) -> Result<Command, End> {
    let [file, number]: [OsString; 2] = operands
        .try_into()
        .map_err(|_| End::usage("content takes a table and a record's number: FILE NUMBER"))?;
    match record_number(&number) {
        Some(number) => Ok(Command::Content {
            file: file.into(),
            number,
        }),
        None => Err(End::usage(format!(
            "'{}' is no number of 1 to 65,535 without leading zero",
            shown::name(&number)
        ))),
    }
}

fn table_target(options: &mut Options) -> Target {
    let table = options.table.take();
    table.map_or(Target::StandardOutput, Target::from)
}

/// What was read once from standard input can't be read again.
fn standard_input_once(sources: &[Source]) -> Result<(), End> {
    let standard = |source: &&Source| **source == Source::StandardInput;
    if sources.iter().filter(standard).count() > 1 {
        return Err(End::usage("standard input (-) can be read only once"));
    }
    Ok(())
}

/// Document 01's numbers: decimal, 1 to 65,535, no leading zero.
fn record_number(word: &OsStr) -> Option<u32> {
    let digits = word.as_bytes();
    let decimal = !digits.is_empty() && digits.iter().all(u8::is_ascii_digit);
    if !decimal || digits[0] == b'0' {
        return None;
    }
    let number: u32 = word.to_str()?.parse().ok()?;
    (number <= 65_535).then_some(number)
}

#[cfg(test)]
mod tests;
