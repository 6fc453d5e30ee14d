//! The command line of the desks: merges, checks and tidies tables, and looks up
//! contents, all by the proved library.

#![forbid(unsafe_code)]

mod arguments;
mod clash;
mod codes;
mod commands;
mod ends;
mod help;
mod lists;
mod rows;
mod shown;
mod sources;
mod targets;
mod temporary;

use std::env;
use std::process::ExitCode;

use arguments::Asked;
use ends::{status_of, Status};

fn main() -> ExitCode {
    answered().into()
}

fn answered() -> Status {
    match arguments::parse(env::args_os().skip(1)) {
        Ok(Asked::Help) => status_of(targets::say(help::HELP), false),
        Ok(Asked::Version) => status_of(targets::say(help::VERSION), false),
        Ok(Asked::Run { command, quiet }) => commands::run(&command, quiet),
        Err(usage) => status_of(Err(usage), false),
    }
}
