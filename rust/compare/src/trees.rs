//! Random trees whose written form their maker knows, since they are grown in
//! that order. Their lines are then put into another order that is as good.

use crate::lines::{text_of, Line};
use crate::random::Random;
use crate::tables::{draw_content, draw_contents, draw_numbers, LONGEST_CONTENT, MOST_BYTES};
use std::collections::HashMap;

/// Where the next record in written order goes.
#[derive(Clone, Copy, Debug)]
pub enum Growth {
    /// All at the top.
    Tops,
    /// Each below the one before.
    Chain,
    /// All the others under the first.
    OneParent,
    /// Parents at the top, each with so many children.
    Families(usize),
    /// Under any record that may still have children, or at the top.
    Anywhere,
    /// Mostly below the one before.
    Deep,
    /// A chain whose records all have a childless child first.
    Comb,
}

pub const GROWTHS: [Growth; 9] = [
    Growth::Tops,
    Growth::Chain,
    Growth::OneParent,
    Growth::Families(1),
    Growth::Families(4),
    Growth::Families(40),
    Growth::Anywhere,
    Growth::Deep,
    Growth::Comb,
];

impl Growth {
    /// The depth of the record at a place, where the one before it in written
    /// order has the depth `last`.
    fn depth(self, place: usize, last: usize, random: &mut Random) -> usize {
        let depth = match self {
            Growth::Tops => 1,
            Growth::Chain => last + 1,
            Growth::OneParent => 2,
            Growth::Families(children) => 1 + usize::from(place % (children + 1) != 0),
            Growth::Deep if !random.one_in(4) => last + 1,
            Growth::Anywhere | Growth::Deep => random.between(1, last + 1),
            Growth::Comb => place / 2 + 1,
        };
        depth.min(last + 1)
    }
}

/// Which of the lists of children that are still to be put down goes on. A list
/// can begin once its parent has its line.
#[derive(Clone, Copy, Debug)]
pub enum LineOrder {
    /// The list begun last: the written order itself.
    Written,
    /// The list begun first, so one depth after the other.
    Levels,
    /// The lists in turn, so that the children of several parents alternate.
    Turns,
    /// Any list.
    Any,
    /// Any list, for some lines each.
    Runs,
}

pub const LINE_ORDERS: [LineOrder; 5] = [
    LineOrder::Written,
    LineOrder::Levels,
    LineOrder::Turns,
    LineOrder::Any,
    LineOrder::Runs,
];

impl LineOrder {
    fn next(self, last: usize, lists: usize, random: &mut Random) -> usize {
        match self {
            LineOrder::Written => lists - 1,
            LineOrder::Levels => 0,
            LineOrder::Turns => (last + 1) % lists,
            LineOrder::Runs if last < lists && !random.one_in(4) => last,
            LineOrder::Any | LineOrder::Runs => random.below(lists),
        }
    }
}

#[derive(Clone, Debug)]
pub struct Tree {
    /// In written order.
    lines: Vec<Line>,
    /// For each record the places of its children; the last is the top.
    children: Vec<Vec<usize>>,
    pub depth: usize,
}

impl Tree {
    pub fn grow(growth: Growth, count: usize, random: &mut Random) -> Tree {
        let numbers = draw_numbers(count, random);
        let contents = draw_contents(count, random);
        let mut tree = Tree {
            lines: Vec::with_capacity(count),
            children: vec![Vec::new(); count + 1],
            depth: 0,
        };
        // The record last put down with those above it, the top first.
        let mut path = vec![count];
        for (place, content) in contents.into_iter().enumerate() {
            path.truncate(growth.depth(place, path.len() - 1, random));
            let above = path[path.len() - 1];
            let parent = numbers.get(above).copied().unwrap_or(0);
            tree.lines.push(Line::new(numbers[place], parent, content));
            tree.children[above].push(place);
            path.push(place);
            tree.depth = tree.depth.max(path.len() - 1);
        }
        tree
    }

    /// The records in written order: number, parent and content.
    pub fn of(records: &[(u32, u32, &[u8])]) -> Tree {
        let mut tree = Tree {
            lines: Vec::with_capacity(records.len()),
            children: vec![Vec::new(); records.len() + 1],
            depth: 0,
        };
        // By number where a record stands and how deep; the top stands last.
        let mut known = HashMap::from([(0, (records.len(), 0))]);
        for (place, &(number, parent, content)) in records.iter().enumerate() {
            let (above, depth) = known[&parent];
            known.insert(number, (place, depth + 1));
            tree.children[above].push(place);
            tree.depth = tree.depth.max(depth + 1);
            tree.lines.push(Line::new(number, parent, content));
        }
        tree
    }

    pub fn lines(&self) -> &[Line] {
        &self.lines
    }

    pub fn count(&self) -> usize {
        self.lines.len()
    }

    pub fn written(&self) -> Vec<u8> {
        text_of(&self.lines)
    }

    /// Parents before their children and children in their order, as a text
    /// must have them.
    pub fn in_order(&self, order: LineOrder, random: &mut Random) -> Vec<u8> {
        let mut lines = Vec::with_capacity(self.count());
        let mut lists = vec![&self.children[self.count()][..]];
        lists.retain(|list| !list.is_empty());
        let mut at = 0;
        while !lists.is_empty() {
            at = order.next(at, lists.len(), random);
            let place = lists[at][0];
            lists[at] = &lists[at][1..];
            if lists[at].is_empty() {
                lists.remove(at);
            }
            if !self.children[place].is_empty() {
                lists.push(&self.children[place]);
            }
            lines.push(self.lines[place].clone());
        }
        text_of(&lines)
    }

    /// Gives the records other contents, so that the text has all the bytes it
    /// may. There must be lines enough for them.
    pub fn fill(&mut self, random: &mut Random) {
        for line in &mut self.lines {
            line.content = vec![b'x'];
        }
        let mut missing = MOST_BYTES - self.written().len();
        let mut lengths = vec![1; self.count()];
        while missing > 0 {
            let length = &mut lengths[random.below(self.lines.len())];
            let added = random.between(0, missing.min(LONGEST_CONTENT - *length));
            *length += added;
            missing -= added;
        }
        for (line, length) in self.lines.iter_mut().zip(lengths) {
            line.content = draw_content(length, random);
        }
    }
}

#[cfg(test)]
mod tests {
    use super::*;

    #[test]
    fn every_order_is_written_alike() {
        let mut random = Random::new(1);
        for growth in GROWTHS {
            let tree = Tree::grow(growth, 60, &mut random);
            let written = tree.written();
            assert_eq!(tree.in_order(LineOrder::Written, &mut random), written);
            for order in LINE_ORDERS {
                let text = tree.in_order(order, &mut random);
                assert_eq!(second::tidy(&text, text.len()).bytes, written);
                assert_eq!(second::check(&text).depth, tree.depth);
            }
        }
    }

    #[test]
    fn full() {
        let mut random = Random::new(2);
        for growth in GROWTHS {
            let mut tree = Tree::grow(growth, 300, &mut random);
            tree.fill(&mut random);
            assert_eq!(tree.written().len(), MOST_BYTES);
        }
    }
}
