//! What `--help` and `--version` print.

pub const VERSION: &str = concat!("brooksaddle ", env!("CARGO_PKG_VERSION"), "\n");

pub const HELP: &str = "\
brooksaddle: the three-way merge of flight-procedure tables

Usage:
  brooksaddle merge OLD FIRST SECOND [--table FILE] [--ledger FILE] [--name NAME]
  brooksaddle check FILE...
  brooksaddle tidy FILE [--table FILE]
  brooksaddle content FILE NUMBER

Commands:
  merge    takes every edit of both desks, or shows the clash and writes nothing
  check    tells how many records each table has and how deep it is, or its fault
  tidy     writes the table with each record before its children, in order
  content  writes the content of the record with that number

Options:
  --table FILE   where the table goes; without it, or with -, to standard output
  --ledger FILE  where the ledger goes; with - to standard output behind the
                 table; without it no ledger is written
  --name NAME    what the words on a refused merge call the three tables
  -q, --quiet    no words on a refusal and no report of check; results are written
  -h, --help     this text
  -V, --version  the version
  --             ends the options

A table that is read may be - for standard input, once in a call.
A file is written only when the call is accepted, and then all of it or nothing.

Exit status: 0 accepted, 1 refused, 2 usage or file trouble.
";
