//! Document 01's demonstration by the second program: over the stored files of
//! the proved programs `demo` and `demo_faults` it must print their stored
//! output, and those of `demo` are the ones that the document shows.

use second::Merged;
use std::fs::File;
use std::io::Read;
use std::path::{Path, PathBuf};

const OF_DOCUMENT: [&str; 3] = ["old.txt", "first.txt", "second.txt"];

/// What `demo_faults` is run over, in its order.
const OF_FAULTS: [[&str; 3]; 8] = [
    ["table.txt", "missing.txt", "table.txt"],
    ["damaged.txt", "table.txt", "missing.txt"],
    ["folder", "missing.txt", "table.txt"],
    ["table.txt", "table.txt", "folder"],
    ["damaged.txt", "table.txt", "table.txt"],
    ["long.txt", "table.txt", "table.txt"],
    ["table.txt", "table.txt", "long.txt"],
    ["empty.txt", "empty.txt", "empty.txt"],
];

fn repository() -> PathBuf {
    Path::new(env!("CARGO_MANIFEST_DIR")).join("../..")
}

fn program(name: &str) -> PathBuf {
    repository().join("crates").join(name)
}

fn stored(path: PathBuf) -> String {
    std::fs::read_to_string(path).expect("the stored file is in the repository")
}

/// At most 32,769 bytes of a file.
fn read(path: &Path) -> std::io::Result<Vec<u8>> {
    let mut text = Vec::new();
    File::open(path)?.take(32_769).read_to_end(&mut text)?;
    Ok(text)
}

/// What the demonstration prints over three files of a folder.
fn printed(folder: &Path, names: [&str; 3]) -> String {
    let mut texts = Vec::new();
    for name in names {
        match read(&folder.join(name)) {
            Ok(text) => texts.push(text),
            Err(_) => return format!("file\t{name}\n"),
        }
    }
    let (mut table, mut ledger) = ([0; 32_768], [0; 8_192]);
    let merged = second::merge(&texts[0], &texts[1], &texts[2], &mut table, &mut ledger);
    let line = five_numbers(merged);
    if merged.code != 0 {
        return line;
    }
    let written = [
        &table[..merged.table_length],
        &ledger[..merged.ledger_length],
    ];
    line + std::str::from_utf8(&written.concat()).expect("tables and ledgers are plain bytes")
}

fn five_numbers(merged: Merged) -> String {
    let Merged {
        code,
        table,
        place,
        table_length,
        ledger_length,
    } = merged;
    format!("{code}\t{table}\t{place}\t{table_length}\t{ledger_length}\n")
}

/// The block that document 01 shows behind a line.
fn shown(line: &str) -> String {
    let document = stored(repository().join("docs/document-01.md"));
    let opening = format!("{line}\n```\n");
    let (_, behind) = document
        .split_once(&opening)
        .expect("the document has the block");
    let (block, _) = behind.split_once("```").expect("the block is closed");
    block.replace('␉', "\t")
}

/// `first.txt` and `second.txt` are told by what they change in `old.txt`.
#[test]
fn the_stored_files_are_those_of_document_01() {
    let [old, first, second] =
        OF_DOCUMENT.map(|name| stored(program("demo").join("data").join(name)));
    let added = "4\t1\thold\tfix=BELIN\tturn=R\n";
    assert_eq!(old, shown("old.txt"));
    assert_eq!(first, old.replace("text=old", "text=new"));
    assert_eq!(second, old.replace("3\t1", &format!("{added}3\t1")));
}

#[test]
fn document_01s_demonstration_has_the_stored_output() {
    let demo = program("demo");
    let output = stored(demo.join("stdout"));
    assert_eq!(output, shown("Output:"));
    assert_eq!(printed(&demo.join("data"), OF_DOCUMENT), output);
}

#[test]
fn files_with_faults_have_the_stored_output() {
    let faults = program("demo_faults");
    let all: String = OF_FAULTS
        .map(|names| printed(&faults.join("data"), names))
        .concat();
    assert_eq!(all, stored(faults.join("stdout")));
}
