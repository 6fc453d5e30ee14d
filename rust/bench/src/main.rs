//! Times the calls of the proved library beside plain Rust.
//!
//! `cargo run --release` prints the times; `cargo run --release -- --stack` the
//! stack one call uses.

#![forbid(unsafe_code)]

mod merging;
mod report;
mod stack;
mod tables;
mod tidying;
mod timing;
mod triples;
mod twin;

use report::{report, Times};
use std::hint::black_box;
use std::process::ExitCode;
use tables::{Table, SHAPES, SIZES};
use timing::medians;

fn main() -> ExitCode {
    let arguments: Vec<String> = std::env::args().skip(1).collect();
    match arguments.first().map(String::as_str) {
        None => {
            report("check", "pass", times_of_check);
            println!();
            report("tidy", "copy", tidying::times);
            println!();
            report("merge of three tables", "pass", merging::times);
            println!();
            report_content();
            ExitCode::SUCCESS
        }
        Some("--stack") => exit_code(stack::report().is_ok()),
        Some(stack::CHILD) => exit_code(stack::child(&arguments[1..]).is_some()),
        Some(_) => {
            eprintln!("usage: bench [--stack]");
            ExitCode::from(2)
        }
    }
}

fn exit_code(good: bool) -> ExitCode {
    if good {
        ExitCode::SUCCESS
    } else {
        ExitCode::FAILURE
    }
}

fn times_of_check(table: &Table) -> Times {
    let text = &table.text[..];
    must_agree(text);
    let each = medians([
        &|| ignore(bridge::check(black_box(text))),
        &|| ignore(second::check(black_box(text))),
        &|| ignore(twin::check(black_box(text))),
        &|| ignore(plain_pass(black_box(text))),
    ]);
    Times {
        bytes: text.len(),
        each,
    }
}

/// Keeps the answer from being left out as unused.
fn ignore<T>(answer: T) {
    black_box(answer);
}

/// Times mean nothing for different answers.
fn must_agree(text: &[u8]) {
    let proved = bridge::check(text);
    let second = second::check(text);
    assert_eq!(second, twin::check(text));
    assert_eq!(
        (proved.code, proved.line, proved.count, proved.depth),
        (second.code, second.line, second.count, second.depth)
    );
    assert_eq!(proved.code, 0);
}

/// The least a reader of every byte can take.
fn plain_pass(text: &[u8]) -> u64 {
    text.iter().map(|&byte| u64::from(byte)).sum()
}

fn report_content() {
    println!("content, microseconds (medians)");
    println!(
        "{:12}{:>6}{:>7}{:>14}{:>14}{:>15}{:>15}",
        "shape", "lines", "bytes", "proved last", "second last", "proved absent", "second absent"
    );
    for shape in &SHAPES {
        for count in SIZES {
            report_content_of(shape.name, count, &(shape.table)(count));
        }
    }
}

fn report_content_of(shape: &str, count: usize, table: &Table) {
    let text = &table.text[..];
    let (last, absent) = (table.last, table.absent);
    assert_eq!(bridge::content(text, last), second::content(text, last));
    assert_eq!(bridge::content(text, absent), b"");
    let times = medians([
        &|| ignore(bridge::content(black_box(text), last)),
        &|| ignore(second::content(black_box(text), last)),
        &|| ignore(bridge::content(black_box(text), absent)),
        &|| ignore(second::content(black_box(text), absent)),
    ]);
    let [proved_last, second_last, proved_absent, second_absent] = times.map(|time| time / 1e3);
    println!(
        "{shape:12}{count:6}{:7}{proved_last:14.2}{second_last:14.2}\
         {proved_absent:15.2}{second_absent:15.2}",
        text.len(),
    );
}
