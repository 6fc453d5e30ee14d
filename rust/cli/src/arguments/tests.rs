//! Words of the command line, and what each must ask for.

use super::*;

fn parsed(words: &[&str]) -> Result<Asked, End> {
    parse(words.iter().map(OsString::from))
}

fn run(command: Command) -> Result<Asked, End> {
    let quiet = false;
    Ok(Asked::Run { command, quiet })
}

fn file(name: &str) -> Source {
    Source::File(name.into())
}

fn merge_of(tables: [&str; 3], table: &str, ledger: Option<&str>, name: Option<&str>) -> Command {
    Command::Merge(Merge {
        tables: tables.map(|name| OsString::from(name).into()),
        table: OsString::from(table).into(),
        ledger: ledger.map(|name| OsString::from(name).into()),
        name: name.map(OsString::from),
    })
}

fn refused(words: &[&str], expected: &str) {
    match parsed(words) {
        Err(End::Trouble(told)) => {
            assert_eq!(told, format!("{expected} (see brooksaddle --help)"));
        }
        other => panic!("{words:?}: {other:?}"),
    }
}

#[test]
fn options_stand_before_or_behind_or_among_the_operands() {
    let expected = run(merge_of(
        ["o", "f", "s"],
        "t",
        Some("l"),
        Some("procedures"),
    ));
    for words in [
        "merge o f s --table t --ledger l --name procedures",
        "--table t --ledger=l --name=procedures merge o f s",
        "merge --table=t o --ledger l f --name procedures s",
        "merge --table=t o --ledger l --name procedures -- f s",
    ] {
        let words: Vec<&str> = words.split(' ').collect();
        assert_eq!(parsed(&words), expected, "{words:?}");
    }
}

#[test]
fn the_table_goes_to_standard_output_unless_said() {
    let expected = run(merge_of(["o", "f", "s"], "-", None, None));
    assert_eq!(parsed(&["merge", "o", "f", "s"]), expected);
    assert_eq!(parsed(&["merge", "o", "f", "s", "--table", "-"]), expected);
    let expected = run(Command::Tidy {
        file: file("o"),
        table: Target::StandardOutput,
    });
    assert_eq!(parsed(&["tidy", "o"]), expected);
}

#[test]
fn behind_two_dashes_every_word_is_an_operand() {
    let expected = run(Command::Check(vec![
        file("--quiet"),
        file("-x"),
        file("--"),
    ]));
    assert_eq!(parsed(&["check", "--", "--quiet", "-x", "--"]), expected);
}

#[test]
fn an_option_takes_the_next_word_whatever_it_is() {
    let expected = run(merge_of(["o", "f", "s"], "--quiet", None, Some("-a=b")));
    assert_eq!(
        parsed(&["merge", "o", "f", "s", "--table", "--quiet", "--name=-a=b"]),
        expected
    );
}

#[test]
fn help_and_version_are_asked_for_anywhere() {
    for word in ["--help", "-h"] {
        assert_eq!(parsed(&[word]), Ok(Asked::Help));
        assert_eq!(parsed(&["merge", "o", word]), Ok(Asked::Help));
    }
    for word in ["--version", "-V"] {
        assert_eq!(parsed(&[word, "--help"]), Ok(Asked::Version));
    }
    assert!(parsed(&["--unknown", "--help"]).is_err());
    assert!(parsed(&["check", "--", "--help"]).is_ok());
}

#[test]
fn quiet_in_either_form() {
    for word in ["--quiet", "-q"] {
        let asked = parsed(&["check", "o", word, word]);
        assert!(matches!(asked, Ok(Asked::Run { quiet: true, .. })));
    }
    refused(
        &["check", "o", "--quiet=yes"],
        "unknown option '--quiet=yes'",
    );
}

#[test]
fn operands_missing_or_too_many() {
    refused(&[], "no command given");
    refused(&["mend", "o"], "unknown command 'mend'");
    for words in [&["merge", "o", "f"][..], &["merge", "o", "f", "s", "t"]] {
        refused(words, "merge takes three tables: OLD FIRST SECOND");
    }
    refused(&["check"], "check takes one table or more: FILE...");
    for words in [&["tidy"][..], &["tidy", "o", "f"]] {
        refused(words, "tidy takes one table: FILE");
    }
    for words in [&["content", "o"][..], &["content", "o", "1", "2"]] {
        let expected = "content takes a table and a record's number: FILE NUMBER";
        refused(words, expected);
    }
}

#[test]
fn options_that_are_none_or_not_for_the_command() {
    refused(&["check", "o", "-x"], "unknown option '-x'");
    refused(&["check", "o", "--tables=t"], "unknown option '--tables=t'");
    refused(&["-qh"], "unknown option '-qh'");
    for (words, option) in [
        (&["check", "o", "--table", "t"][..], "--table"),
        (&["tidy", "o", "--ledger", "l"], "--ledger"),
        (&["content", "o", "1", "--name", "n"], "--name"),
    ] {
        let expected = format!("option '{option}' is not for this command");
        refused(words, &expected);
    }
}

#[test]
fn options_without_their_name_or_given_twice() {
    for words in [&["tidy", "o", "--table"][..], &["tidy", "o", "--table="]] {
        refused(words, "option '--table' needs a name behind it");
    }
    let words = ["tidy", "o", "--table", "t", "--table=t"];
    refused(&words, "option '--table' is given twice");
}

#[test]
fn standard_input_is_read_once() {
    let expected = run(merge_of(["o", "-", "s"], "-", None, None));
    assert_eq!(parsed(&["merge", "o", "-", "s"]), expected);
    let words = "standard input (-) can be read only once";
    refused(&["merge", "-", "f", "-"], words);
    refused(&["check", "-", "--", "-"], words);
}

#[test]
fn numbers_of_records() {
    for (word, number) in [("1", 1), ("65535", 65_535), ("100", 100)] {
        let file = file("o");
        let expected = run(Command::Content { file, number });
        assert_eq!(parsed(&["content", "o", word]), expected);
    }
    for word in [
        "0",
        "01",
        "65536",
        "+1",
        "1.0",
        "",
        " 1",
        "99999999999",
        "1a",
    ] {
        let expected = format!("'{word}' is no number of 1 to 65,535 without leading zero");
        refused(&["content", "o", word], &expected);
    }
}
