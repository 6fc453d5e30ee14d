//! git with the program as its merge driver, in a repository made by the test.

use crate::desk::{ran, Desk, Ran, CLASHING, FIRST, MERGED, OLD, PROGRAM, SECOND};
use std::env;
use std::ffi::OsString;
use std::fs;
use std::path::Path;
use std::process::{Command, Stdio};

/// The documented line of configuration, and what chooses the driver for a file.
const CONFIGURATION: &str =
    r#"git config merge.brooksaddle.driver "brooksaddle merge %O %A %B --table %A --name %P""#;
const ATTRIBUTES: &str = "*.table merge=brooksaddle";

/// A name that a shell would part at its blank and stumble over at its quote.
const TABLE: &str = "it's north.table";

/// A repository where main and other each changed the table that both began with.
struct Repository {
    desk: Desk,
}

impl Repository {
    fn new(name: &str, old: Option<&str>, main: &str, other: &str) -> Repository {
        let repository = Repository {
            desk: Desk::empty(name),
        };
        repository.git("init -q -b main");
        repository.shell(CONFIGURATION);
        repository.desk.write(".gitattributes", ATTRIBUTES);
        repository.commit(old);
        repository.git("checkout -q -b other");
        repository.commit(Some(other));
        repository.git("checkout -q main");
        repository.commit(Some(main));
        repository
    }

    fn commit(&self, table: Option<&str>) {
        if let Some(text) = table {
            self.desk.write(TABLE, text);
        }
        self.git("add --all");
        self.git("commit -q --allow-empty -m edited");
    }

    /// A git command that must be accepted.
    #[track_caller]
    fn git(&self, words: &str) -> String {
        let ran = self.run(Command::new("git").args(words.split(' ')));
        assert_eq!(ran.status, Some(0), "{words}: {ran:?}");
        ran.out
    }

    #[track_caller]
    fn shell(&self, line: &str) {
        let ran = self.run(Command::new("sh").args(["-c", line]));
        assert_eq!(ran.status, Some(0), "{line}: {ran:?}");
    }

    fn merge(&self) -> Ran {
        self.run(Command::new("git").args(["merge", "--no-edit", "other"]))
    }

    /// Whether git merges these texts line by line.
    fn lines_merge(&self, texts: [&str; 3]) -> bool {
        let files = [".git/current", ".git/base", ".git/other"];
        for (file, text) in files.iter().zip(texts) {
            self.desk.write(file, text);
        }
        let mut merge = Command::new("git");
        let ran = self.run(merge.args(["merge-file", "-p"]).args(files));
        ran.status == Some(0)
    }

    /// Runs a command with the program in PATH, apart from the machine's own
    /// configuration of git.
    fn run(&self, command: &mut Command) -> Ran {
        for variable in ["GIT_DIR", "GIT_WORK_TREE", "GIT_INDEX_FILE"] {
            command.env_remove(variable);
        }
        for variable in ["GIT_CONFIG_GLOBAL", "GIT_CONFIG_SYSTEM"] {
            command.env(variable, "/dev/null");
        }
        for who in ["AUTHOR", "COMMITTER"] {
            command.env(format!("GIT_{who}_NAME"), "A Desk");
            command.env(format!("GIT_{who}_EMAIL"), "desk@example.org");
        }
        command.env("LC_ALL", "C").env("PATH", path_with_program());
        command.current_dir(&self.desk.folder).stdin(Stdio::null());
        ran(command.output().unwrap())
    }

    /// git reports a conflict, the table is main's, and nothing else stands there.
    #[track_caller]
    fn stays_in_conflict(&self, ran: &Ran, main: &str) {
        assert_eq!(ran.status, Some(1), "{ran:?}");
        let conflict = format!("Merge conflict in {TABLE}");
        assert!(ran.out.contains(&conflict), "{ran:?}");
        assert_eq!(self.desk.read(TABLE), main);
        assert_eq!(self.desk.names(), [".git", ".gitattributes", TABLE]);
    }
}

fn path_with_program() -> OsString {
    let folder = Path::new(PROGRAM).parent().unwrap().to_path_buf();
    let others = env::var_os("PATH").unwrap_or_default();
    env::join_paths([folder].into_iter().chain(env::split_paths(&others))).unwrap()
}

#[test]
fn the_readme_has_the_lines_that_are_tried_here() {
    let readme = Path::new(env!("CARGO_MANIFEST_DIR")).join("../../README.md");
    let readme = fs::read_to_string(readme).unwrap();
    for line in [CONFIGURATION, ATTRIBUTES] {
        assert!(readme.lines().any(|found| found == line), "{line}");
    }
}

#[test]
fn a_clean_merge() {
    let repository = Repository::new("git-clean", Some(OLD), FIRST, SECOND);
    let ran = repository.merge();
    assert_eq!((ran.status, &ran.err[..]), (Some(0), ""), "{ran:?}");
    assert_eq!(repository.desk.read(TABLE), MERGED);
    assert_eq!(repository.git("status --porcelain"), "");
    let parents = repository.git("rev-list --parents -n 1 HEAD");
    assert_eq!(parents.split_whitespace().count(), 3);
    assert_eq!(repository.desk.names(), [".git", ".gitattributes", TABLE]);
}

/// git by itself merges these lines, and leaves a record without its parent.
#[test]
fn a_clash_that_git_would_not_see() {
    let old = "1\t0\ta\n2\t0\tb\n3\t0\tc\n4\t0\td\n5\t0\te\n6\t0\tf\n";
    let main = old.replace("2\t0\tb\n", "");
    let other = format!("{old}7\t2\tg\n");
    let repository = Repository::new("git-unseen", Some(old), &main, &other);
    assert!(repository.lines_merge([&main, old, &other]));
    let ran = repository.merge();
    repository.stays_in_conflict(&ran, &main);
    let words = format!("brooksaddle: {TABLE}: lost edit in record 2 or its list");
    assert!(ran.err.starts_with(&words), "{ran:?}");
}

#[test]
fn a_clash() {
    let repository = Repository::new("git-clash", Some(OLD), FIRST, CLASHING);
    let ran = repository.merge();
    repository.stays_in_conflict(&ran, FIRST);
    let expected = format!(
        "brooksaddle: {TABLE}: \
         content clash in record 3: two edits give it different contents (code 21)
  {TABLE} (old), record 3:
    line   3: 3\t1\tnote\ttext=old
  {TABLE} (first), record 3:
    line   3: 3\t1\tnote\ttext=new
  {TABLE} (second), record 3:
    line   3: 3\t1\tnote\ttext=other
"
    );
    assert_eq!(ran.err, expected);
    // All three tables stand in the index, as after any conflict.
    let status = repository.git("status --porcelain");
    assert_eq!(status, format!("UU \"{TABLE}\"\n"));
    for (stage, text) in [(1, OLD), (2, FIRST), (3, CLASHING)] {
        let mut show = Command::new("git");
        let ran = repository.run(show.args(["show", &format!(":{stage}:{TABLE}")]));
        assert_eq!(ran.out, text);
    }
}

#[test]
fn an_unreadable_table() {
    let damaged = SECOND.replace("4\t1", "4\t9");
    let repository = Repository::new("git-unreadable", Some(OLD), FIRST, &damaged);
    let ran = repository.merge();
    repository.stays_in_conflict(&ran, FIRST);
    let expected = format!(
        "brooksaddle: {TABLE} (second), line 3: \
         parent neither 0 nor on an earlier line (code 10)\
         \n    4\\t9\\thold\\tfix=BELIN\\tturn=R\n"
    );
    assert_eq!(ran.err, expected);
}

/// git hands in an empty old table where both branches began the file.
#[test]
fn a_table_that_both_branches_began() {
    let repository = Repository::new("git-began", None, OLD, OLD);
    assert_eq!(repository.merge().status, Some(0));
    let repository = Repository::new("git-began-clash", None, FIRST, CLASHING);
    let ran = repository.merge();
    repository.stays_in_conflict(&ran, FIRST);
    assert!(ran.err.contains("(code 21)"), "{ran:?}");
}
