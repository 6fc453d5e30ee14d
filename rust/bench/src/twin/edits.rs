//! The edits of a branch, marked on its lines, and codes 21 to 23 and 25.

use super::links::{Line, Links, LINES};

/// What of a line old lacks: the content, the facts that the record follows and
/// is followed by, and those at both ends of its list.
pub const CONTENT: u8 = 1;
pub const FOLLOWER: u8 = 2;
pub const FORERUNNER: u8 = 4;
pub const FIRST: u8 = 8;
pub const LAST: u8 = 16;

const ALL: u8 = CONTENT | FOLLOWER | FORERUNNER | FIRST | LAST;

/// A branch with its edits.
pub struct Branch<'t> {
    pub text: &'t [u8],
    pub links: &'t Links,
    pub marks: [u8; LINES],
}

impl<'t> Branch<'t> {
    pub fn new(text: &'t [u8], links: &'t Links, old_text: &[u8], old: &Links) -> Branch<'t> {
        let mut marks = [0; LINES];
        for (line, mark) in links.lines().iter().zip(&mut marks) {
            let old_line = old.line_of(line.number);
            *mark = if Links::has_list(line.number, old_line) {
                edits(line, text, old.line(old_line), old_text)
            } else {
                ALL
            };
        }
        Branch { text, links, marks }
    }

    #[inline(always)]
    pub fn has_edit(&self, line: u16, edit: u8) -> bool {
        self.marks[usize::from(line)] & edit != 0
    }
}

/// Of a record that old has too. The top has no content and no neighbours, so
/// its two lines are equal there.
#[inline(always)]
fn edits(line: &Line, text: &[u8], old: &Line, old_text: &[u8]) -> u8 {
    let moved = line.parent != old.parent;
    let mark = |edit: u8, given: bool| if given { edit } else { 0 };
    mark(FOLLOWER, moved || line.follower != old.follower)
        | mark(FORERUNNER, moved || line.forerunner != old.forerunner)
        | mark(FIRST, line.first != old.first)
        | mark(LAST, line.last != old.last)
        | mark(CONTENT, contents_differ(line, text, old, old_text))
}

#[inline(always)]
fn contents_differ(line: &Line, text: &[u8], other: &Line, other_text: &[u8]) -> bool {
    line.length != other.length || line.content(text) != other.content(other_text)
}

/// The least place of each of the codes 21 to 23, if it has one.
#[derive(Default)]
pub struct Clashes([Option<u16>; 3]);

impl Clashes {
    pub fn between(first: &Branch, second: &Branch) -> Clashes {
        let mut clashes = Clashes::default();
        for (line, &marks) in first.links.lines().iter().zip(&first.marks) {
            if marks == 0 {
                continue;
            }
            let other = second.links.line_of(line.number);
            if Links::has_list(line.number, other) {
                let both = marks & second.marks[usize::from(other)];
                clashes.add(first, line, second, second.links.line(other), both);
                let moved = FOLLOWER | FORERUNNER;
                if marks & moved != 0 && second.has_edit(other, moved) {
                    clashes.add_parents(line, second.links.line(other));
                }
            }
        }
        clashes
    }

    /// The lowest code with its place.
    pub fn lowest(&self) -> Option<(u32, u16)> {
        let [contents, parents, neighbours] = self.0;
        contents
            .map(|place| (21, place))
            .or(parents.map(|place| (22, place)))
            .or(neighbours.map(|place| (23, place)))
    }

    /// One record in both branches, with the edits that both have.
    #[inline(always)]
    fn add(&mut self, first: &Branch, line: &Line, second: &Branch, other: &Line, both: u8) {
        if both & CONTENT != 0 && contents_differ(line, first.text, other, second.text) {
            note(&mut self.0[0], line.number);
        }
        let ends_differ = (both & FIRST != 0 && line.first != other.first)
            || (both & LAST != 0 && line.last != other.last);
        if ends_differ {
            note(&mut self.0[2], line.number);
        }
        let neighbours_differ = (both & FOLLOWER != 0 && line.follower != other.follower)
            || (both & FORERUNNER != 0 && line.forerunner != other.forerunner);
        if neighbours_differ && line.parent == other.parent {
            note(&mut self.0[2], line.parent);
        }
    }

    /// One record that stands in edits of both branches.
    #[inline(always)]
    fn add_parents(&mut self, line: &Line, other: &Line) {
        if line.parent != other.parent {
            note(&mut self.0[1], line.number);
        }
    }
}

/// Keeps the least place.
#[inline(always)]
pub fn note(least: &mut Option<u16>, place: u16) {
    *least = Some(least.map_or(place, |known| known.min(place)));
}
