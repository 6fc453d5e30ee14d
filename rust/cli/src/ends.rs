//! How a call ends: its exit status, and the words for a call that is not accepted.

use std::io::{self, Write};
use std::process::ExitCode;

/// The exit status. The worse stands behind the better.
#[derive(Clone, Copy, Debug, PartialEq, Eq, PartialOrd, Ord)]
pub enum Status {
    Accepted = 0,
    Refused = 1,
    Trouble = 2,
}

impl From<Status> for ExitCode {
    fn from(status: Status) -> ExitCode {
        ExitCode::from(status as u8)
    }
}

/// Why a call was not accepted, in words.
#[derive(Debug, PartialEq, Eq)]
pub enum End {
    /// A table is unreadable, a clash was met or a record is absent.
    Refused(String),
    /// Usage or file trouble.
    Trouble(String),
}

impl End {
    /// Usage trouble, with the hint where to read on.
    pub fn usage(words: impl AsRef<str>) -> End {
        End::Trouble(format!("{} (see brooksaddle --help)", words.as_ref()))
    }

    /// The file, or standard input or output, and the system's reason.
    pub fn of_file(name: &str, reason: &io::Error) -> End {
        End::Trouble(format!("{name}: {reason}"))
    }

    /// A code that no call of this program can be answered with.
    pub fn internal(call: &str, code: u32) -> End {
        End::Trouble(format!("internal error: {call} answered code {code}"))
    }
}

/// Tells the words on standard error, but a refusal only unless quiet.
pub fn status_of(result: Result<(), End>, quiet: bool) -> Status {
    match result {
        Ok(()) => Status::Accepted,
        Err(End::Refused(words)) => {
            if !quiet {
                tell(&words);
            }
            Status::Refused
        }
        Err(End::Trouble(words)) => {
            tell(&words);
            Status::Trouble
        }
    }
}

/// One write, so that the words stay together where several programs write.
fn tell(words: &str) {
    let words = format!("brooksaddle: {}\n", words.trim_end_matches('\n'));
    // If no one hears the words, the status still tells.
    let _ = io::stderr().write_all(words.as_bytes());
}
