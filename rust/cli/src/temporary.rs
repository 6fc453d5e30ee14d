//! A file that stands beside its target until it takes the target's place.

use std::ffi::{OsStr, OsString};
use std::fs::{self, File, OpenOptions, Permissions};
use std::io::{self, ErrorKind, Write};
use std::os::unix::ffi::OsStrExt;
use std::path::{Path, PathBuf};
use std::process;

/// So much of the target's name goes into that of the temporary file: a name may
/// have 255 bytes, and some are needed behind it.
const MOST_OF_NAME: usize = 200;

/// So many names are tried, for one may be left over from a call that was killed.
const MOST_NAMES: u32 = 100;

/// All bytes of a result in the target's own folder. Removed when it is dropped
/// before it was put in place.
pub struct Temporary {
    file: PathBuf,
    target: PathBuf,
    in_place: bool,
}

impl Temporary {
    /// Writes the bytes to disk, under the target's permissions if it has some.
    pub fn new(
        target: PathBuf,
        permissions: Option<Permissions>,
        bytes: &[u8],
    ) -> io::Result<Temporary> {
        let (mut file, path) = created_beside(&target)?;
        let temporary = Temporary {
            file: path,
            target,
            in_place: false,
        };
        // Before the bytes, which others may not be allowed to read.
        if let Some(permissions) = permissions {
            file.set_permissions(permissions)?;
        }
        file.write_all(bytes)?;
        file.sync_all()?;
        Ok(temporary)
    }

    /// Renames the file onto its target.
    pub fn put_in_place(mut self) -> io::Result<()> {
        fs::rename(&self.file, &self.target)?;
        self.in_place = true;
        // So that a later rename is not on disk before this one. Where the
        // system can't do it for a folder, the file itself is whole anyway.
        let _ = File::open(folder_of(&self.target)).and_then(|folder| folder.sync_all());
        Ok(())
    }
}

impl Drop for Temporary {
    fn drop(&mut self) {
        if !self.in_place {
            // What is left over is harmless, and nothing else can be done here.
            let _ = fs::remove_file(&self.file);
        }
    }
}

fn created_beside(target: &Path) -> io::Result<(File, PathBuf)> {
    let name = name_of(target).ok_or(ErrorKind::IsADirectory)?;
    let mut left = MOST_NAMES;
    loop {
        let path = folder_of(target).join(temporary_name(name, MOST_NAMES - left));
        left -= 1;
        match OpenOptions::new().write(true).create_new(true).open(&path) {
            Err(reason) if reason.kind() == ErrorKind::AlreadyExists && left > 0 => {}
            Err(reason) => return Err(reason),
            Ok(file) => return Ok((file, path)),
        }
    }
}

/// The name of the file in its folder; none if it is written as a folder's.
fn name_of(file: &Path) -> Option<&OsStr> {
    let ends_so = |name: &&OsStr| file.as_os_str().as_bytes().ends_with(name.as_bytes());
    file.file_name().filter(ends_so)
}

fn temporary_name(name: &OsStr, attempt: u32) -> OsString {
    let start = &name.as_bytes()[..name.len().min(MOST_OF_NAME)];
    let mut temporary = OsString::from(".");
    temporary.push(OsStr::from_bytes(start));
    temporary.push(format!(".brooksaddle-{}-{attempt}", process::id()));
    temporary
}

/// The folder that a file stands in.
pub fn folder_of(file: &Path) -> &Path {
    match file.parent() {
        Some(folder) if !folder.as_os_str().is_empty() => folder,
        _ => Path::new("."),
    }
}

#[cfg(test)]
mod tests {
    use super::*;

    #[test]
    fn its_name_is_hidden_and_not_too_long() {
        let name = temporary_name(OsStr::new("new.table"), 3);
        let expected = format!(".new.table.brooksaddle-{}-3", process::id());
        assert_eq!(name, OsString::from(expected));
        let long = OsString::from("x".repeat(255));
        assert!(temporary_name(&long, 99).len() <= 255);
    }

    #[test]
    fn a_folder_has_no_name_for_it() {
        let name = Some(OsStr::new("new.table"));
        assert_eq!(name_of(Path::new("new.table")), name);
        assert_eq!(name_of(Path::new("a/new.table")), name);
        for folder in ["a/", "a/.", "a/..", "/", ".", ""] {
            assert_eq!(name_of(Path::new(folder)), None, "{folder}");
        }
    }

    #[test]
    fn it_stands_in_the_folder_of_its_target() {
        assert_eq!(folder_of(Path::new("new.table")), Path::new("."));
        assert_eq!(folder_of(Path::new("a/b/new.table")), Path::new("a/b"));
        assert_eq!(folder_of(Path::new("/new.table")), Path::new("/"));
    }
}
