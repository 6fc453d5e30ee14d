//! Where results go: to standard output, or to a file that then has all of the
//! result or stays as it was.

use std::ffi::OsString;
use std::fs::{self, File, Metadata, OpenOptions};
use std::io::{self, ErrorKind, Write};
use std::os::fd::AsFd;
use std::path::{Path, PathBuf};

use crate::ends::End;
use crate::shown;
use crate::temporary::{folder_of, Temporary};

/// As many links as the system itself follows.
const MOST_LINKS: usize = 40;

/// Where a result goes.
#[derive(Debug, PartialEq, Eq)]
pub enum Target {
    StandardOutput,
    File(OsString),
}

impl From<OsString> for Target {
    fn from(word: OsString) -> Target {
        if word == "-" {
            Target::StandardOutput
        } else {
            Target::File(word)
        }
    }
}

impl Target {
    /// Whether both are the same file, by the same name or along links. Standard
    /// output can take one result behind the other, so it is not meant.
    pub fn is_same_file(&self, other: &Target) -> bool {
        match (self, other) {
            (Target::File(one), Target::File(other)) => {
                one == other || full_name(one).is_some_and(|name| full_name(other) == Some(name))
            }
            _ => false,
        }
    }

    fn name(&self) -> String {
        match self {
            Target::StandardOutput => "standard output".to_string(),
            Target::File(file) => shown::name(file),
        }
    }

    fn trouble(&self, reason: &io::Error) -> End {
        End::of_file(&self.name(), reason)
    }

    /// The temporary file with the bytes; none for a target that can't be
    /// replaced by another file.
    fn prepared(&self, bytes: &[u8]) -> io::Result<Option<Temporary>> {
        let Target::File(file) = self else {
            return Ok(None);
        };
        let permissions = match existing(Path::new(file))? {
            Some(found) if found.is_dir() => return Err(ErrorKind::IsADirectory.into()),
            Some(found) if !found.is_file() => return Ok(None),
            found => found.map(|file| file.permissions()),
        };
        Temporary::new(followed(Path::new(file)), permissions, bytes).map(Some)
    }

    /// Writes to what can't be replaced: standard output, a pipe, a device.
    fn write_through(&self, bytes: &[u8]) -> io::Result<()> {
        match self {
            // Through a file: Rust's own standard output takes what can't be
            // written for written.
            Target::StandardOutput => {
                let output = io::stdout().as_fd().try_clone_to_owned()?;
                File::from(output).write_all(bytes)
            }
            Target::File(file) => OpenOptions::new().write(true).open(file)?.write_all(bytes),
        }
    }
}

/// Prints words that were asked for.
pub fn say(words: &str) -> Result<(), End> {
    write(&[(&Target::StandardOutput, words.as_bytes())])
}

/// Writes every result, the table before its ledger. No file is changed before
/// all bytes of all results are written; then the ledger is put in place before
/// the table, so that no new table stands without its ledger.
pub fn write(results: &[(&Target, &[u8])]) -> Result<(), End> {
    let mut temporaries = Vec::new();
    let mut others = Vec::new();
    for (target, bytes) in results {
        match target.prepared(bytes) {
            Ok(Some(temporary)) => temporaries.push((*target, temporary)),
            Ok(None) => others.push((target, bytes)),
            Err(reason) => return Err(target.trouble(&reason)),
        }
    }
    for (target, bytes) in others {
        let written = target.write_through(bytes);
        written.map_err(|reason| target.trouble(&reason))?;
    }
    put_in_place(temporaries)
}

/// From the last to the first. Those behind a trouble stay as they were.
fn put_in_place(temporaries: Vec<(&Target, Temporary)>) -> Result<(), End> {
    for (target, temporary) in temporaries.into_iter().rev() {
        let placed = temporary.put_in_place();
        placed.map_err(|reason| target.trouble(&reason))?;
    }
    Ok(())
}

fn existing(file: &Path) -> io::Result<Option<Metadata>> {
    match fs::metadata(file) {
        Ok(found) => Ok(Some(found)),
        Err(reason) if reason.kind() == ErrorKind::NotFound => Ok(None),
        Err(reason) => Err(reason),
    }
}

/// The file that a name leads to along symbolic links. It need not be there yet.
fn followed(file: &Path) -> PathBuf {
    let mut file = file.to_path_buf();
    for _ in 0..MOST_LINKS {
        let Ok(next) = fs::read_link(&file) else {
            break;
        };
        file = file.parent().unwrap_or(Path::new("")).join(next);
    }
    file
}

/// The one name that all names of a file lead to; none if its folder isn't there.
fn full_name(file: &OsString) -> Option<PathBuf> {
    let file = followed(Path::new(file));
    let folder = folder_of(&file).canonicalize().ok()?;
    Some(folder.join(file.file_name()?))
}

#[cfg(test)]
mod tests {
    use super::*;
    use std::{env, process};

    fn target(name: &str) -> Target {
        Target::from(OsString::from(name))
    }

    #[test]
    fn a_file_is_known_by_any_of_its_names() {
        let one = target("new.table");
        assert!(one.is_same_file(&target("new.table")));
        assert!(one.is_same_file(&target("./src/../new.table")));
        assert!(!one.is_same_file(&target("new.ledger")));
        assert!(!one.is_same_file(&target("src/new.table")));
    }

    #[test]
    fn a_name_in_a_folder_that_is_not_there_is_known_too() {
        let one = target("absent/new.table");
        assert!(one.is_same_file(&target("absent/new.table")));
        assert!(!one.is_same_file(&target("absent/new.ledger")));
    }

    #[test]
    fn standard_output_takes_both() {
        assert_eq!(target("-"), Target::StandardOutput);
        assert!(!target("-").is_same_file(&target("-")));
        assert!(!target("-").is_same_file(&target("new.table")));
    }

    /// What stands in a folder when table and ledger are whole beside their
    /// targets, but one of these can't be replaced.
    fn left_when_barred(barred: &str) -> Vec<String> {
        let folder = env::temp_dir().join(format!("brooksaddle-{}-{barred}", process::id()));
        fs::create_dir(&folder).unwrap();
        let targets = ["table", "ledger"].map(|name| Target::File(folder.join(name).into()));
        let whole = |target: &Target| target.prepared(b"x").unwrap().unwrap();
        let temporaries = targets.iter().map(|target| (target, whole(target)));
        let temporaries = temporaries.collect();
        fs::create_dir(folder.join(barred)).unwrap();
        assert!(put_in_place(temporaries).is_err());
        let entries = fs::read_dir(&folder).unwrap();
        let name = |entry: fs::DirEntry| entry.file_name().into_string().unwrap();
        let mut left: Vec<String> = entries.map(|entry| name(entry.unwrap())).collect();
        left.sort();
        fs::remove_dir_all(&folder).unwrap();
        left
    }

    #[test]
    fn no_new_table_stands_without_its_ledger() {
        assert_eq!(left_when_barred("ledger"), ["ledger"]);
        assert_eq!(left_when_barred("table"), ["ledger", "table"]);
    }
}
