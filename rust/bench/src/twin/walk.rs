//! The walk: the merged tree is laid down line by line, and its lines are the
//! queue of the lists that are still to be walked. So the children of a record
//! stand on lines that follow each other.

use super::decimal::digits;
use super::edits::{note, Branch, CONTENT, FIRST, FOLLOWER};
use super::links::{Links, LINES};

/// Both branches have 512 records at most, and a merged record is one of theirs.
const ROOM: usize = 2 * LINES;

/// A line of the merged tree.
#[derive(Clone, Copy, Default)]
pub struct Laid {
    pub number: u16,
    pub parent: u16,
    pub follower: u16,
    pub first: u16,
    /// The line of the parent, and that of the first child.
    pub above: u16,
    pub first_line: u16,
    /// The lines of the record in old and in the branches, 0 where it is absent.
    lines: [u16; 3],
    /// 0 for old's content, else 1 for first and 2 for second, added.
    pub origin: u16,
    pub content: u16,
    pub length: u16,
}

pub struct Walk<'a> {
    old: &'a Links,
    branches: &'a [Branch<'a>; 2],
    /// Line 0 is the top's.
    pub laid: [Laid; ROOM],
    pub count: usize,
    /// For each line of a branch the line laid for its record.
    reached: [[u16; LINES]; 2],
    broken: Option<u16>,
    pub table_length: usize,
    pub ledger_length: usize,
    pub content_bytes: usize,
}

impl<'a> Walk<'a> {
    pub fn new(old: &'a Links, branches: &'a [Branch<'a>; 2]) -> Walk<'a> {
        Walk {
            old,
            branches,
            laid: [Laid::default(); ROOM],
            count: 0,
            reached: [[0; LINES]; 2],
            broken: None,
            table_length: 0,
            ledger_length: 0,
            content_bytes: 0,
        }
    }

    /// The least parent whose list stops before END.
    pub fn walk(&mut self) -> Option<u16> {
        let mut at = 0;
        while at <= self.count {
            self.list(at as u16);
            at += 1;
        }
        self.broken
    }

    fn list(&mut self, above: u16) {
        let parent = self.laid[usize::from(above)];
        let mut next = self.kept_first(&parent);
        let mut before = 0;
        loop {
            match next {
                None => return note(&mut self.broken, parent.number),
                Some(0) => return,
                Some(number) => {
                    let line = self.lay(number, parent.number, above);
                    if before == 0 {
                        self.laid[usize::from(above)].first = number;
                        self.laid[usize::from(above)].first_line = line;
                    } else {
                        self.laid[usize::from(before)].follower = number;
                    }
                    next = self.kept_follower(&parent, &self.laid[usize::from(line)]);
                    before = line;
                }
            }
        }
    }

    /// Who comes first in the list, by a kept fact; END is 0.
    #[inline(always)]
    fn kept_first(&self, parent: &Laid) -> Option<u16> {
        let [in_old, in_branches @ ..] = parent.lines;
        let has_list = |line| Links::has_list(parent.number, line);
        for (branch, line) in self.branches.iter().zip(in_branches) {
            if has_list(line) && branch.has_edit(line, FIRST) {
                return Some(branch.links.line(line).first);
            }
        }
        if !has_list(in_old) {
            return None;
        }
        let first = self.old.line(in_old).first;
        for (branch, line) in self.branches.iter().zip(in_branches) {
            // One that has the list has the fact, since it has no edit there.
            if !has_list(line) && branch.links.line_of(first) != 0 {
                return None;
            }
        }
        Some(first)
    }

    /// Who follows the record under the parent, by a kept fact; END is 0.
    #[inline(always)]
    fn kept_follower(&self, parent: &Laid, record: &Laid) -> Option<u16> {
        let [in_old, in_branches @ ..] = record.lines;
        for (branch, line) in self.branches.iter().zip(in_branches) {
            if line != 0 && branch.has_edit(line, FOLLOWER) {
                let line = branch.links.line(line);
                if line.parent == parent.number {
                    return Some(line.follower);
                }
            }
        }
        let old = self.old.line(in_old);
        if in_old == 0 || old.parent != parent.number {
            return None;
        }
        for (place, branch) in self.branches.iter().enumerate() {
            let line = in_branches[place];
            let disagrees = if line != 0 {
                branch.has_edit(line, FOLLOWER)
            } else if old.follower == 0 {
                Links::has_list(parent.number, parent.lines[place + 1])
            } else {
                branch.links.line_of(old.follower) != 0
            };
            if disagrees {
                return None;
            }
        }
        Some(old.follower)
    }

    /// The line of the record, which is the next.
    #[inline(always)]
    fn lay(&mut self, number: u16, parent: u16, above: u16) -> u16 {
        self.count += 1;
        let line = self.count as u16;
        let [first, second] = self.branches;
        let in_old = self.old.line_of(number);
        let in_first = first.links.line_of(number);
        let in_second = second.links.line_of(number);
        self.reached[0][usize::from(in_first)] = line;
        self.reached[1][usize::from(in_second)] = line;
        let by_first = in_first != 0 && first.has_edit(in_first, CONTENT);
        let by_second = in_second != 0 && second.has_edit(in_second, CONTENT);
        let source = match (by_first, by_second) {
            (true, _) => first.links.line(in_first),
            (false, true) => second.links.line(in_second),
            (false, false) => self.old.line(in_old),
        };
        let (content, length) = (source.content, source.length);
        self.laid[usize::from(line)] = Laid {
            number,
            parent,
            above,
            lines: [in_old, in_first, in_second],
            origin: u16::from(by_first) + 2 * u16::from(by_second),
            content,
            length,
            ..Laid::default()
        };
        self.table_length += digits(number) + digits(parent) + usize::from(length) + 3;
        self.ledger_length += digits(number) + digits(length) + 4;
        self.content_bytes += usize::from(length);
        line
    }

    /// The least place of an edit that is not in the merged tree.
    pub fn lost_edit(&self) -> Option<u16> {
        let mut least = None;
        for (branch, reached) in self.branches.iter().zip(&self.reached) {
            for (at, line) in branch.links.lines().iter().enumerate() {
                let marks = branch.marks[at];
                if marks == 0 {
                    continue;
                }
                // Absent records are noted on the line of the top, whose own
                // is always 0.
                let at = if at == 0 { 0 } else { reached[at] };
                let laid = &self.laid[usize::from(at)];
                let there = Links::has_list(line.number, at);
                if marks & CONTENT != 0 && !there {
                    note(&mut least, line.number);
                }
                if marks & FIRST != 0 && !(there && laid.first == line.first) {
                    note(&mut least, line.number);
                }
                let stays = there && laid.parent == line.parent;
                if marks & FOLLOWER != 0 && !(stays && laid.follower == line.follower) {
                    note(&mut least, line.parent);
                }
            }
        }
        least
    }
}
