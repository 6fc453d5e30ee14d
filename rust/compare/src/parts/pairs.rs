//! Two codes on one table: the whole text before lines, the first faulty line
//! before later ones, and on one line the lowest code.

use crate::case::Case;
use crate::lines::{lengthen_to, text_of, tops, Line};
use crate::random::Random;
use crate::spoil::{spoilt, ways_count, Fault};
use crate::tables::draw_table;

const LINE_CODES: std::ops::RangeInclusive<u32> = 4..=10;

fn small_table() -> Vec<Line> {
    draw_table(7, &mut Random::new(7)).lines
}

/// About so many of the ways to a code, spread over all of them.
fn faults(lines: &[Line], at: usize, code: u32, wanted: usize) -> Vec<Fault> {
    let count = ways_count(lines, at, code);
    let stride = count.div_ceil(wanted).max(1);
    (0..count)
        .step_by(stride)
        .map(|way| Fault { code, way })
        .collect()
}

/// As `faults`, for all the codes 4 to 10.
fn all_faults(lines: &[Line], at: usize, wanted: usize) -> Vec<Fault> {
    LINE_CODES
        .flat_map(|code| faults(lines, at, code, wanted))
        .collect()
}

pub fn on_one_line() -> Vec<Case> {
    let lines = small_table();
    let mut cases = Vec::new();
    for at in [0, 3, 6] {
        for low in LINE_CODES {
            for high in low + 1..=10 {
                cases.extend(both_on_line(&lines, at, low, high));
            }
        }
        cases.extend(unended_with(&lines, at));
    }
    cases.extend(line_513_with());
    cases.extend(too_long_with());
    cases
}

/// The lower code is brought about last, so that it holds whatever the other
/// did to the same part of the line.
fn both_on_line(lines: &[Line], at: usize, low: u32, high: u32) -> Vec<Case> {
    let mut cases = Vec::new();
    for high in faults(lines, at, high, 12) {
        for low in faults(lines, at, low, 12) {
            let spoilt = spoilt(lines, at, &[high, low]);
            cases.push(Case::refused(text_of(&spoilt), low.code, at + 1));
        }
    }
    cases
}

/// Code 2 with another on one of the lines, the unended one among them.
fn unended_with(lines: &[Line], at: usize) -> Vec<Case> {
    let mut cases = Vec::new();
    for fault in all_faults(lines, at, 12) {
        let mut text = text_of(&spoilt(lines, at, &[fault]));
        text.pop();
        // An empty last line is no line at all once its LF is gone.
        if text.last() != Some(&b'\n') {
            cases.push(Case::refused(text, 2, lines.len()));
        }
    }
    cases
}

fn line_513_with() -> Vec<Case> {
    let lines = tops(513);
    let mut cases = Vec::new();
    for fault in all_faults(&lines, 512, 12) {
        let text = text_of(&spoilt(&lines, 512, &[fault]));
        cases.push(Case::refused([&text[..], b"x"].concat(), 2, 514));
        cases.push(Case::refused(text, 3, 513));
    }
    cases
}

/// Long enough that no fault brings it down to 32,768 bytes.
fn too_long_with() -> Vec<Case> {
    let mut lines = tops(400);
    lengthen_to(&mut lines, 34_000);
    let mut cases = Vec::new();
    for at in [0, 200, 399] {
        for fault in all_faults(&lines, at, 12) {
            let mut text = text_of(&spoilt(&lines, at, &[fault]));
            cases.push(Case::refused(text.clone(), 1, 0));
            text.pop();
            cases.push(Case::refused(text, 1, 0));
        }
    }
    let mut lines = tops(513);
    lengthen_to(&mut lines, 32_769);
    cases.push(Case::refused(text_of(&lines), 1, 0));
    cases
}

pub fn on_two_lines() -> Vec<Case> {
    let lines = small_table();
    let mut cases = Vec::new();
    for places in [(0, 1), (0, 6), (1, 2), (2, 5), (5, 6)] {
        cases.extend(each_on_its_line(&lines, places));
    }
    cases.extend(line_513_and_another());
    cases
}

/// Every code on the first line with every code on the second.
fn each_on_its_line(lines: &[Line], (first, second): (usize, usize)) -> Vec<Case> {
    let mut cases = Vec::new();
    for fault in all_faults(lines, first, 4) {
        for other in all_faults(lines, second, 4) {
            let mut both = spoilt(lines, first, &[fault]);
            both[second] = spoilt(lines, second, &[other]).swap_remove(second);
            cases.push(Case::refused(text_of(&both), fault.code, first + 1));
        }
    }
    cases
}

/// Line 513 after, and before, a line with another code.
fn line_513_and_another() -> Vec<Case> {
    let lines = tops(514);
    let mut cases = Vec::new();
    for at in [0, 1, 255, 511] {
        for fault in all_faults(&lines, at, 4) {
            let text = text_of(&spoilt(&lines, at, &[fault]));
            cases.push(Case::refused(text, fault.code, at + 1));
        }
    }
    for fault in all_faults(&lines, 513, 12) {
        let text = text_of(&spoilt(&lines, 513, &[fault]));
        cases.push(Case::refused(text, 3, 513));
    }
    cases
}
