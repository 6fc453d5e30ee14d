//! A table as a tree that edits can change: the list of each parent, and the
//! content of each record.

use crate::random::Random;
use crate::trees::{LineOrder, Tree, LINE_ORDERS};
use std::collections::{BTreeMap, BTreeSet};

pub const TOP: u32 = 0;

#[derive(Clone, Debug, PartialEq, Eq)]
pub struct Forest {
    /// For the top and every record its children in order.
    pub lists: BTreeMap<u32, Vec<u32>>,
    pub contents: BTreeMap<u32, Vec<u8>>,
}

impl Forest {
    pub fn empty() -> Forest {
        Forest {
            lists: BTreeMap::from([(TOP, Vec::new())]),
            contents: BTreeMap::new(),
        }
    }

    pub fn of(tree: &Tree) -> Forest {
        let mut forest = Forest::empty();
        for line in tree.lines() {
            let [number, parent] = [&line.number, &line.parent].map(|digits| value(digits));
            forest.insert(number, parent, usize::MAX, &line.content);
        }
        forest
    }

    /// The table that a text holds, if the second program can read it.
    pub fn read(text: &[u8]) -> Option<Forest> {
        let table = second::Table::read(text).ok()?;
        let mut forest = Forest::empty();
        for record in table.records() {
            forest.insert(record.number, record.parent, usize::MAX, record.content);
        }
        Some(forest)
    }

    pub fn has(&self, number: u32) -> bool {
        self.contents.contains_key(&number)
    }

    pub fn records(&self) -> Vec<u32> {
        self.contents.keys().copied().collect()
    }

    /// The top and all records.
    pub fn parents(&self) -> Vec<u32> {
        self.lists.keys().copied().collect()
    }

    pub fn parent_of(&self, number: u32) -> Option<u32> {
        let mut lists = self.lists.iter();
        lists
            .find(|(_, list)| list.contains(&number))
            .map(|(&parent, _)| parent)
    }

    /// The record and all below it.
    pub fn below(&self, number: u32) -> BTreeSet<u32> {
        let mut met = BTreeSet::new();
        let mut waiting = vec![number];
        while let Some(number) = waiting.pop() {
            met.insert(number);
            waiting.extend(&self.lists[&number]);
        }
        met
    }

    /// At a place of the parent's list, or at its end if it is shorter.
    pub fn insert(&mut self, number: u32, parent: u32, place: usize, content: &[u8]) {
        self.contents.insert(number, content.to_vec());
        self.lists.insert(number, Vec::new());
        self.put(number, parent, place);
    }

    pub fn change(&mut self, number: u32, content: &[u8]) {
        self.contents.insert(number, content.to_vec());
    }

    /// With all below it.
    pub fn delete(&mut self, number: u32) {
        self.take(number);
        for gone in self.below(number) {
            self.lists.remove(&gone);
            self.contents.remove(&gone);
        }
    }

    /// With all below it, which its new parent is not among.
    pub fn move_to(&mut self, number: u32, parent: u32, place: usize) {
        self.take(number);
        self.put(number, parent, place);
    }

    /// The record goes, and its children take its place.
    pub fn dissolve(&mut self, number: u32) {
        if let Some((parent, place)) = self.take(number) {
            let children = self.lists.remove(&number).unwrap_or_default();
            let list = self.lists.entry(parent).or_default();
            list.splice(place..place, children);
            self.contents.remove(&number);
        }
    }

    /// The record has another number from now on, one that is free.
    pub fn rename(&mut self, number: u32, new: u32) {
        if let Some((parent, place)) = self.take(number) {
            let children = self.lists.remove(&number).unwrap_or_default();
            let content = self.contents.remove(&number).unwrap_or_default();
            self.insert(new, parent, place, &content);
            self.lists.insert(new, children);
        }
    }

    fn put(&mut self, number: u32, parent: u32, place: usize) {
        let list = self.lists.entry(parent).or_default();
        list.insert(place.min(list.len()), number);
    }

    /// Out of its list: whose that is, and where it stood.
    fn take(&mut self, number: u32) -> Option<(u32, usize)> {
        for (&parent, list) in &mut self.lists {
            if let Some(place) = list.iter().position(|&child| child == number) {
                list.remove(place);
                return Some((parent, place));
            }
        }
        None
    }

    /// Number, parent and content in written order.
    pub fn rows(&self) -> Vec<(u32, u32, &[u8])> {
        let mut rows = Vec::with_capacity(self.contents.len());
        let children = |parent: u32| {
            let list = self.lists[&parent].iter().rev();
            list.map(move |&child| (child, parent))
        };
        let mut waiting: Vec<(u32, u32)> = children(TOP).collect();
        while let Some((number, parent)) = waiting.pop() {
            rows.push((number, parent, &self.contents[&number][..]));
            waiting.extend(children(number));
        }
        rows
    }

    pub fn tree(&self) -> Tree {
        Tree::of(&self.rows())
    }

    pub fn written(&self) -> Vec<u8> {
        self.tree().written()
    }

    pub fn text(&self, order: LineOrder, random: &mut Random) -> Vec<u8> {
        self.tree().in_order(order, random)
    }

    /// In any line order.
    pub fn any_text(&self, random: &mut Random) -> Vec<u8> {
        self.text(random.pick(&LINE_ORDERS), random)
    }

    /// The ledger of this merged tree, whose contents come from these three.
    pub fn ledger(&self, [old, first, second]: [&Forest; 3]) -> Vec<u8> {
        let mut ledger = String::new();
        let mut bytes = 0;
        for (number, _, content) in self.rows() {
            let held = |forest: &Forest| {
                let held = forest.contents.get(&number);
                held.is_some_and(|held| held == content)
            };
            let origin = match (held(old), held(first), held(second)) {
                (true, _, _) => 0,
                (false, true, true) => 3,
                (false, true, false) => 1,
                (false, false, _) => 2,
            };
            ledger += &format!("{number}\t{origin}\t{}\n", content.len());
            bytes += content.len();
        }
        ledger += &format!("total\t{}\t{bytes}\n", self.contents.len());
        ledger.into_bytes()
    }
}

fn value(digits: &[u8]) -> u32 {
    let digits = std::str::from_utf8(digits).expect("digits");
    digits.parse().expect("a number")
}

#[cfg(test)]
mod tests {
    use super::*;
    use crate::trees::GROWTHS;

    #[test]
    fn a_tree_again() {
        let mut random = Random::new(1);
        for growth in GROWTHS {
            let tree = Tree::grow(growth, 50, &mut random);
            let forest = Forest::of(&tree);
            assert_eq!(forest.written(), tree.written());
            let text = forest.any_text(&mut random);
            assert_eq!(second::tidy(&text, text.len()).bytes, tree.written());
            assert_eq!(Forest::read(&text), Some(forest));
        }
        assert_eq!(Forest::read(b"1\t1\tx\n"), None);
    }

    #[test]
    fn changes() {
        let mut forest = Forest::empty();
        for (number, parent) in [(1, 0), (2, 1), (3, 1), (4, 3)] {
            forest.insert(number, parent, usize::MAX, b"x");
        }
        forest.move_to(3, 0, 0);
        assert_eq!(forest.written(), b"3\t0\tx\n4\t3\tx\n1\t0\tx\n2\t1\tx\n");
        forest.dissolve(3);
        forest.rename(1, 9);
        assert_eq!(forest.written(), b"4\t0\tx\n9\t0\tx\n2\t9\tx\n");
        forest.delete(9);
        assert_eq!(forest.written(), b"4\t0\tx\n");
    }
}
