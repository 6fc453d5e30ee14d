//! The tables that a call reads.

use std::ffi::OsString;
use std::fs::File;
use std::io::{self, Read};
use std::os::fd::AsFd;

use crate::ends::End;
use crate::shown;

/// One byte more than a table may have: enough to judge that a text is too long,
/// so an endless one is answered too.
const MOST_READ: u64 = 32_769;

/// Where a table is read from.
#[derive(Debug, PartialEq, Eq)]
pub enum Source {
    StandardInput,
    File(OsString),
}

/// A text that was read, and what the words call it.
pub struct Input {
    pub name: String,
    pub text: Vec<u8>,
}

impl From<OsString> for Source {
    fn from(word: OsString) -> Source {
        if word == "-" {
            Source::StandardInput
        } else {
            Source::File(word)
        }
    }
}

impl Source {
    /// Reads the text, or as much of it as is needed to judge it.
    pub fn read(&self) -> Result<Input, End> {
        let name = self.name();
        match self.text() {
            Ok(text) => Ok(Input { name, text }),
            Err(reason) => Err(End::of_file(&name, &reason)),
        }
    }

    fn name(&self) -> String {
        match self {
            Source::StandardInput => "standard input".to_string(),
            Source::File(file) => shown::name(file),
        }
    }

    fn text(&self) -> io::Result<Vec<u8>> {
        match self {
            // Through a file: Rust's own standard input takes one that can't be
            // read for an empty one.
            Source::StandardInput => {
                let input = io::stdin().as_fd().try_clone_to_owned()?;
                start_of(File::from(input))
            }
            Source::File(file) => start_of(File::open(file)?),
        }
    }
}

fn start_of(reader: impl Read) -> io::Result<Vec<u8>> {
    let mut text = Vec::new();
    reader.take(MOST_READ).read_to_end(&mut text)?;
    Ok(text)
}

#[cfg(test)]
mod tests {
    use super::*;

    #[test]
    fn only_a_lone_dash_is_standard_input() {
        assert_eq!(Source::from(OsString::from("-")), Source::StandardInput);
        assert_eq!(
            Source::from(OsString::from("./-")),
            Source::File("./-".into())
        );
    }

    #[test]
    fn an_endless_text_is_cut_behind_the_limit() {
        assert_eq!(start_of(io::repeat(b'x')).unwrap().len(), 32_769);
        assert_eq!(start_of(&b"abc"[..]).unwrap(), b"abc");
    }
}
