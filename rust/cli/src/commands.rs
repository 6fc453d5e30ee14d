//! The four commands: files in, a call of the library, results or words out.

use crate::arguments::{Command, Merge};
use crate::clash::{self, Named};
use crate::codes;
use crate::ends::{status_of, End, Status};
use crate::shown;
use crate::sources::{Input, Source};
use crate::targets::{self, Target};

/// Room enough for every merged table and every ledger.
const TABLE_ROOM: usize = 32_768;
const LEDGER_ROOM: usize = 8_192;

/// Runs a command and tells its words.
pub fn run(command: &Command, quiet: bool) -> Status {
    match command {
        Command::Merge(files) => status_of(merge(files), quiet),
        Command::Check(files) => check(files, quiet),
        Command::Tidy { file, table } => status_of(tidy(file, table), quiet),
        Command::Content { file, number } => status_of(content(file, *number), quiet),
    }
}

fn merge(files: &Merge) -> Result<(), End> {
    let both = |ledger: &Target| files.table.is_same_file(ledger);
    if files.ledger.as_ref().is_some_and(both) {
        return Err(End::usage("table and ledger would be the same file"));
    }
    let [old, first, second] = &files.tables;
    // Every file is read before any table is judged.
    let inputs = [old.read()?, first.read()?, second.read()?];
    let (mut table, mut ledger) = ([0; TABLE_ROOM], [0; LEDGER_ROOM]);
    let [old, first, second] = inputs.each_ref().map(|input| &input.text[..]);
    let answer = bridge::merge(old, first, second, &mut table, &mut ledger);
    if answer.code != 0 {
        return Err(refused_merge(files, &inputs, &answer));
    }
    let mut results = vec![(&files.table, &table[..answer.table_length])];
    if let Some(target) = &files.ledger {
        results.push((target, &ledger[..answer.ledger_length]));
    }
    targets::write(&results)
}

fn refused_merge(files: &Merge, inputs: &[Input; 3], answer: &bridge::Merged) -> End {
    let given = files.name.as_deref().map(shown::name);
    let tables = named(inputs, given.as_deref());
    // A name that was given stands before words that name no single table.
    let before = given.map_or(String::new(), |name| format!("{name}: "));
    let place = answer.place;
    match (answer.code, answer.table) {
        (code @ 1..=10, table @ 1..=3) => {
            let Named { name, text } = &tables[table as usize - 1];
            End::Refused(codes::unreadable(name, text, code, place))
        }
        (code @ 21..=25, _) => End::Refused(before + &clash::report(code, place, &tables)),
        (26, _) => End::Refused(before + &codes::too_large()),
        (code, _) => End::internal("merge", code),
    }
}

/// The three tables, each called by its role and by its file or the name given.
fn named<'a>(inputs: &'a [Input; 3], given: Option<&str>) -> [Named<'a>; 3] {
    let roles = ["old", "first", "second"];
    [0, 1, 2].map(|table| {
        let input = &inputs[table];
        let name = given.unwrap_or(&input.name);
        Named {
            name: format!("{name} ({})", roles[table]),
            text: &input.text,
        }
    })
}

/// Looks at every file, whatever the others are. The worst status counts.
fn check(files: &[Source], quiet: bool) -> Status {
    let statuses = files.iter().map(|file| {
        let report = file.read().and_then(|input| checked(&input));
        let said = report.and_then(|report| {
            if quiet {
                return Ok(());
            }
            targets::say(&report)
        });
        status_of(said, quiet)
    });
    statuses.max().unwrap_or(Status::Accepted)
}

fn checked(input: &Input) -> Result<String, End> {
    let answer = readable(input)?;
    let records = if answer.count == 1 {
        "record"
    } else {
        "records"
    };
    Ok(format!(
        "{}: {} {records}, depth {}\n",
        input.name, answer.count, answer.depth
    ))
}

/// The answer of check for a readable table.
fn readable(input: &Input) -> Result<bridge::Checked, End> {
    let answer = bridge::check(&input.text);
    match answer.code {
        0 => Ok(answer),
        code => Err(refused_table(input, code, answer.line)),
    }
}

fn refused_table(input: &Input, code: u32, line: u32) -> End {
    End::Refused(codes::unreadable(&input.name, &input.text, code, line))
}

fn tidy(file: &Source, table: &Target) -> Result<(), End> {
    let input = file.read()?;
    let mut written = [0; TABLE_ROOM];
    let answer = bridge::tidy(&input.text, &mut written);
    match answer.code {
        0 => targets::write(&[(table, &written[..answer.length])]),
        code @ 1..=10 => Err(refused_table(&input, code, answer.line)),
        code => Err(End::internal("tidy", code)),
    }
}

fn content(file: &Source, number: u32) -> Result<(), End> {
    let input = file.read()?;
    readable(&input)?;
    let content = bridge::content(&input.text, number);
    // A content is never empty.
    if content.is_empty() {
        return Err(End::Refused(format!("{}: no record {number}", input.name)));
    }
    targets::write(&[(&Target::StandardOutput, &[content, b"\n"].concat())])
}
