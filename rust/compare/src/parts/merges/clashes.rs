//! Old tables that are edited in one or a few places only, so that the clash and
//! its place are known.

use super::edited::{draw_forest, draw_spare};
use crate::merging::forest::{Forest, TOP};
use crate::merging::Triple;
use crate::random::Random;
use std::collections::{BTreeMap, BTreeSet};

pub fn draw(random: &mut Random) -> Triple {
    let count = random.between(4, 30);
    let old = draw_forest(count, random);
    let mut desks = Desks {
        old: &old,
        branches: [old.clone(), old.clone()],
    };
    let clash = match random.below(8) {
        0 => None,
        1 => desks.parents(random),
        2 => desks.neighbours(random),
        3 | 4 => desks.broken(random),
        5 => desks.crossed(random),
        _ => desks.lost(random),
    };
    // Contents can clash in any tree, even where it has no place for another
    // clash.
    let (code, place) = clash.unwrap_or_else(|| desks.contents(random));
    // Which of the two is first does not matter.
    random.shuffle(&mut desks.branches);
    let [first, second] = &desks.branches;
    let texts = [&old, first, second].map(|forest| forest.any_text(random));
    Triple::refused(texts, code, 0, place)
}

/// The two desks, which have no edits before.
struct Desks<'a> {
    old: &'a Forest,
    branches: [Forest; 2],
}

/// The code and its place.
type Clash = (u32, u32);

impl Desks<'_> {
    /// Up to three records get two contents each, as long as the old one and
    /// differing in the last byte alone.
    fn contents(&mut self, random: &mut Random) -> Clash {
        let mut least = u32::MAX;
        for _ in 0..random.between(1, 3) {
            let number = random.pick(&self.old.records());
            let mut content = self.old.contents[&number].clone();
            let last = content.len() - 1;
            let before = content[last];
            let mut others = b"LRx".iter().filter(|&&byte| byte != before);
            for (branch, &byte) in self.branches.iter_mut().zip(&mut others) {
                content[last] = byte;
                branch.change(number, &content);
            }
            least = least.min(number);
        }
        (21, least)
    }

    /// One record goes to two parents.
    fn parents(&mut self, random: &mut Random) -> Option<Clash> {
        let number = random.pick(&self.old.records());
        let below = self.old.below(number);
        let before = self.old.parent_of(number);
        let mut parents = self.old.parents();
        parents.retain(|parent| !below.contains(parent) && before != Some(*parent));
        if parents.len() < 2 {
            return None;
        }
        random.shuffle(&mut parents);
        for (branch, &parent) in self.branches.iter_mut().zip(&parents) {
            let place = random.between(0, branch.lists[&parent].len());
            branch.move_to(number, parent, place);
        }
        Some((22, number))
    }

    /// Under up to three parents two different records are inserted at one place.
    fn neighbours(&mut self, random: &mut Random) -> Option<Clash> {
        let mut parents = self.old.parents();
        random.shuffle(&mut parents);
        parents.truncate(random.between(1, 3));
        let spare = draw_spare(self.old, 2 * parents.len(), random);
        for (&parent, numbers) in parents.iter().zip(spare.chunks(2)) {
            let place = random.between(0, self.old.lists[&parent].len());
            for (branch, &number) in self.branches.iter_mut().zip(numbers) {
                branch.insert(number, parent, place, b"x");
            }
        }
        parents.into_iter().min().map(|parent| (23, parent))
    }

    /// In up to three lists two records that follow each other are deleted, one
    /// by each desk.
    fn broken(&mut self, random: &mut Random) -> Option<Clash> {
        let lists = self.old.lists.iter();
        let mut parents: Vec<u32> = lists
            .filter(|(_, list)| list.len() > 1)
            .map(|(&parent, _)| parent)
            .collect();
        random.shuffle(&mut parents);
        let mut breaks = BTreeMap::new();
        let mut gone = BTreeSet::new();
        for parent in parents {
            let list = &self.old.lists[&parent];
            let place = random.below(list.len() - 1);
            let [one, other] = [list[place], list[place + 1]];
            let both: BTreeSet<u32> = &self.old.below(one) | &self.old.below(other);
            let apart = breaks.keys().all(|parent| !both.contains(parent));
            if breaks.len() < 3 && apart && !gone.contains(&parent) {
                breaks.insert(parent, place);
                gone.extend(both);
                random.shuffle(&mut self.branches);
                self.branches[0].delete(one);
                self.branches[1].delete(other);
            }
        }
        self.least_reached(&breaks).map(|parent| (24, parent))
    }

    /// The list of each of these parents leads on to the second of the two that
    /// were deleted, past the first, and stops there.
    fn least_reached(&self, breaks: &BTreeMap<u32, usize>) -> Option<u32> {
        let mut least = None;
        let mut waiting = vec![TOP];
        while let Some(parent) = waiting.pop() {
            let list = &self.old.lists[&parent];
            let Some(&place) = breaks.get(&parent) else {
                waiting.extend(list);
                continue;
            };
            waiting.extend(&list[..place]);
            waiting.push(list[place + 1]);
            least = Some(least.map_or(parent, |known: u32| known.min(parent)));
        }
        least
    }

    /// Each of two records from different lists goes below the other.
    fn crossed(&mut self, random: &mut Random) -> Option<Clash> {
        let records = self.old.records();
        let numbers = [random.pick(&records), random.pick(&records)];
        let below = numbers.map(|number| self.old.below(number));
        let parents = numbers.map(|number| self.old.parent_of(number));
        let apart = !below[0].contains(&numbers[1]) && !below[1].contains(&numbers[0]);
        if !apart || parents[0] == parents[1] {
            return None;
        }
        let mut least = u32::MAX;
        for (desk, branch) in self.branches.iter_mut().enumerate() {
            let targets: Vec<u32> = below[1 - desk].iter().copied().collect();
            let parent = random.pick(&targets);
            let place = random.between(0, branch.lists[&parent].len());
            branch.move_to(numbers[desk], parent, place);
            least = least.min(parent);
        }
        Some((25, least))
    }

    /// One desk deletes a record with all below it, the other edits one of those.
    fn lost(&mut self, random: &mut Random) -> Option<Clash> {
        let number = random.pick(&self.old.records());
        let below: Vec<u32> = self.old.below(number).into_iter().collect();
        let edited = random.pick(&below);
        let [one, other] = &mut self.branches;
        one.delete(number);
        if random.one_in(2) {
            let content: &[u8] = match &self.old.contents[&edited][..] {
                b"new" => b"newer",
                _ => b"new",
            };
            other.change(edited, content);
            return Some((25, edited));
        }
        let inserted = draw_spare(self.old, 1, random)[0];
        let place = random.between(0, other.lists[&edited].len());
        other.insert(inserted, edited, place, b"x");
        Some((25, edited.min(inserted)))
    }
}
