//! Prints the times of a call: the proved one beside the second program, the
//! twin, and the least that such a call can take.

use crate::tables::{Table, SHAPES, SIZES};

/// How many bytes a call reads, and the times of proved, second, twin and the
/// least, in nanoseconds.
pub struct Times {
    pub bytes: usize,
    pub each: [f64; 4],
}

pub fn report(call: &str, least: &str, times: impl Fn(&Table) -> Times) {
    println!("{call}, microseconds (medians); /NAME is proved divided by NAME");
    println!(
        "{:12}{:>6}{:>7}{:>10}{:>10}{:>10}{least:>10}{:>10}{:>10}{:>10}",
        "shape",
        "lines",
        "bytes",
        "proved",
        "second",
        "twin",
        "/second",
        "/twin",
        format!("/{least}"),
    );
    for shape in &SHAPES {
        for count in SIZES {
            let table = (shape.table)(count);
            report_row(shape.name, count, times(&table));
        }
    }
}

fn report_row(shape: &str, lines: usize, Times { bytes, each }: Times) {
    let [proved, second, twin, least] = each;
    println!(
        "{shape:12}{lines:6}{bytes:7}{:10.2}{:10.2}{:10.2}{:10.2}{:10.2}{:10.2}{:10.1}",
        proved / 1e3,
        second / 1e3,
        twin / 1e3,
        least / 1e3,
        proved / second,
        proved / twin,
        proved / least,
    );
}
