//! A folder with tables, and the program run in it.

use std::ffi::OsStr;
use std::fs::{self, File};
use std::io::Write;
use std::path::{Path, PathBuf};
use std::process::{Child, Command, Output, Stdio};

pub const PROGRAM: &str = env!("CARGO_BIN_EXE_brooksaddle");

/// Document 01's demonstration.
pub const OLD: &str =
    "1\t0\tairport\tid=XQAA\n2\t1\thold\tfix=TARNO\tturn=L\n3\t1\tnote\ttext=old\n";
pub const FIRST: &str =
    "1\t0\tairport\tid=XQAA\n2\t1\thold\tfix=TARNO\tturn=L\n3\t1\tnote\ttext=new\n";
pub const SECOND: &str = "1\t0\tairport\tid=XQAA\n2\t1\thold\tfix=TARNO\tturn=L\n\
                          4\t1\thold\tfix=BELIN\tturn=R\n3\t1\tnote\ttext=old\n";
pub const MERGED: &str = "1\t0\tairport\tid=XQAA\n2\t1\thold\tfix=TARNO\tturn=L\n\
                          4\t1\thold\tfix=BELIN\tturn=R\n3\t1\tnote\ttext=new\n";
pub const LEDGER: &str = "1\t0\t15\n2\t0\t21\n4\t2\t21\n3\t1\t13\ntotal\t4\t70\n";

/// Second with another edit of the record that first edits: a content clash.
pub const CLASHING: &str =
    "1\t0\tairport\tid=XQAA\n2\t1\thold\tfix=TARNO\tturn=L\n3\t1\tnote\ttext=other\n";

/// A folder of its own for a test, removed when the test is over.
pub struct Desk {
    pub folder: PathBuf,
}

/// How a run ended.
#[derive(Debug)]
pub struct Ran {
    pub status: Option<i32>,
    pub out: String,
    pub err: String,
}

impl Desk {
    /// An empty folder; each test gives another name.
    pub fn empty(name: &str) -> Desk {
        let folder = Path::new(env!("CARGO_TARGET_TMPDIR")).join(name);
        let _ = fs::remove_dir_all(&folder);
        fs::create_dir_all(&folder).unwrap();
        Desk { folder }
    }

    /// The demonstration's three tables, and one that clashes.
    pub fn new(name: &str) -> Desk {
        let desk = Desk::empty(name);
        desk.write("old.txt", OLD);
        desk.write("first.txt", FIRST);
        desk.write("second.txt", SECOND);
        desk.write("clashing.txt", CLASHING);
        desk
    }

    pub fn path(&self, name: impl AsRef<Path>) -> PathBuf {
        self.folder.join(name)
    }

    pub fn write(&self, name: impl AsRef<Path>, text: impl AsRef<[u8]>) {
        fs::write(self.path(name), text).unwrap();
    }

    pub fn read(&self, name: impl AsRef<Path>) -> String {
        String::from_utf8(fs::read(self.path(name)).unwrap()).unwrap()
    }

    /// The names of all that stands in the folder, in order.
    pub fn names(&self) -> Vec<String> {
        let entries = fs::read_dir(&self.folder).unwrap();
        let name = |entry: fs::DirEntry| entry.file_name().to_string_lossy().into_owned();
        let mut names: Vec<String> = entries.map(|entry| name(entry.unwrap())).collect();
        names.sort();
        names
    }

    /// The folder's files with their texts: what a refused call may not change.
    pub fn all(&self) -> Vec<(String, String)> {
        let with_text = |name: String| (name.clone(), self.read(name));
        self.names().into_iter().map(with_text).collect()
    }

    /// The program in this folder, with nothing on its standard input.
    pub fn program<W: AsRef<OsStr>>(&self, words: impl IntoIterator<Item = W>) -> Command {
        let mut program = Command::new(PROGRAM);
        program.current_dir(&self.folder).args(words);
        program.stdin(Stdio::null());
        program
    }

    /// Runs the program with words that are parted by single blanks.
    pub fn run(&self, words: &str) -> Ran {
        ran(self.program(words.split(' ')).output().unwrap())
    }

    pub fn run_with_input(&self, words: &str, input: impl AsRef<[u8]>) -> Ran {
        let mut child = self.waiting(words);
        child
            .stdin
            .take()
            .unwrap()
            .write_all(input.as_ref())
            .unwrap();
        ran(child.wait_with_output().unwrap())
    }

    /// The program, started and waiting for its standard input.
    pub fn waiting(&self, words: &str) -> Child {
        let mut program = self.program(words.split(' '));
        program.stdin(Stdio::piped());
        program.stdout(Stdio::piped()).stderr(Stdio::piped());
        program.spawn().unwrap()
    }

    /// Runs the program with its standard output going to a file or a device.
    pub fn run_onto(&self, words: &str, output: impl AsRef<Path>) -> Ran {
        let output = File::options().write(true).open(output).unwrap();
        let mut program = self.program(words.split(' '));
        ran(program.stdout(output).output().unwrap())
    }
}

impl Drop for Desk {
    fn drop(&mut self) {
        let _ = fs::remove_dir_all(&self.folder);
    }
}

pub fn ran(output: Output) -> Ran {
    Ran {
        status: output.status.code(),
        out: String::from_utf8(output.stdout).unwrap(),
        err: String::from_utf8(output.stderr).unwrap(),
    }
}

impl Ran {
    /// Accepted, with this on standard output and no words.
    #[track_caller]
    pub fn accepted(&self, out: &str) {
        assert_eq!((self.status, &self.err[..]), (Some(0), ""), "{self:?}");
        assert_eq!(self.out, out);
    }

    /// Refused with exactly these words, and nothing on standard output.
    #[track_caller]
    pub fn refused(&self, words: &str) {
        assert_eq!((self.status, &self.out[..]), (Some(1), ""), "{self:?}");
        assert_eq!(self.err, format!("brooksaddle: {words}\n"));
    }

    /// Usage or file trouble, told in one line that starts so, and nothing on
    /// standard output.
    #[track_caller]
    pub fn troubled(&self, start: &str) {
        assert_eq!((self.status, &self.out[..]), (Some(2), ""), "{self:?}");
        assert_eq!(self.err.lines().count(), 1, "{self:?}");
        let start = format!("brooksaddle: {start}");
        assert!(self.err.starts_with(&start), "{self:?}");
    }
}
