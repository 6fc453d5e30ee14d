//! Each list and each content is for one desk alone to edit, or for both alike.
//! So the merged tree is known: it has each as its owner left it.

use super::edited::{draw_old, draw_spare};
use crate::merging::edits::{draw_short_content, Desk, Edit};
use crate::merging::forest::Forest;
use crate::merging::Triple;
use crate::random::Random;
use crate::tables::{MOST_BYTES, MOST_LINES};
use std::collections::{BTreeMap, BTreeSet};

#[derive(Clone, Copy, Debug, PartialEq, Eq, PartialOrd, Ord)]
enum Owner {
    First,
    Second,
    /// Each makes the same edits.
    Both,
}

const OWNERS: [Owner; 3] = [Owner::First, Owner::Second, Owner::Both];

impl Owner {
    /// The places of the trees that an edit is made in: first, second, merged.
    fn trees(self) -> &'static [usize] {
        match self {
            Owner::First => &[0, 2],
            Owner::Second => &[1, 2],
            Owner::Both => &[0, 1, 2],
        }
    }
}

const MERGED: usize = 2;

struct Work {
    trees: [Forest; 3],
    lists: BTreeMap<u32, Owner>,
    contents: BTreeMap<u32, Owner>,
    /// Whose list or content was edited, and by whom.
    edited: BTreeSet<(u32, Owner)>,
    /// The one desk that moves records from list to list by itself, so that no
    /// two moves cross.
    mover: Owner,
    spare: Vec<u32>,
}

pub fn draw(random: &mut Random) -> Triple {
    let old = draw_old(random);
    let edits = random.between(1, 12);
    draw_in(&old, edits, random)
}

pub fn draw_in(old: &Forest, edits: usize, random: &mut Random) -> Triple {
    let mut work = Work::new(old, edits, random);
    for _ in 0..edits {
        work.edit(random);
    }
    let [first, second, merged] = &work.trees;
    known(old, first, second, merged, random)
}

/// What is due where the merged tree is known but for the limits.
pub fn known(
    old: &Forest,
    first: &Forest,
    second: &Forest,
    merged: &Forest,
    random: &mut Random,
) -> Triple {
    let desks = [old, first, second];
    let texts = desks.map(|forest| forest.any_text(random));
    if desks.into_iter().any(is_over_limits) {
        Triple::unknown(texts)
    } else if is_over_limits(merged) {
        Triple::refused(texts, 26, 0, 0)
    } else {
        Triple::merged(texts, merged.written(), merged.ledger(desks))
    }
}

fn is_over_limits(forest: &Forest) -> bool {
    forest.contents.len() > MOST_LINES || forest.written().len() > MOST_BYTES
}

impl Work {
    fn new(old: &Forest, edits: usize, random: &mut Random) -> Work {
        let mut owned = |numbers: Vec<u32>| {
            let owners = numbers.into_iter();
            owners
                .map(|number| (number, random.pick(&OWNERS)))
                .collect()
        };
        Work {
            trees: [(); 3].map(|()| old.clone()),
            lists: owned(old.parents()),
            contents: owned(old.records()),
            edited: BTreeSet::new(),
            mover: random.pick(&[Owner::First, Owner::Second]),
            spare: draw_spare(old, edits, random),
        }
    }

    fn edit(&mut self, random: &mut Random) {
        let parent = random.pick(&self.trees[MERGED].parents());
        let owner = self.lists[&parent];
        let list = &self.trees[MERGED].lists[&parent];
        if list.is_empty() || random.one_in(3) {
            return self.insert(parent, owner, random);
        }
        let child = random.pick(list);
        match random.below(8) {
            0 => self.make(parent, owner, &Edit::Reverse(parent)),
            1 => {
                let edit = self.desk().draw_move_in_list(child, random);
                self.make(parent, owner, &edit);
            }
            2 | 3 => self.delete(child, parent, owner),
            4 | 5 => self.move_away(child, parent, owner, random),
            _ => self.change(random),
        }
    }

    fn desk(&self) -> Desk<'_> {
        Desk {
            forest: &self.trees[MERGED],
            spare: &self.spare,
        }
    }

    fn make(&mut self, number: u32, owner: Owner, edit: &Edit) {
        for &tree in owner.trees() {
            edit.make(&mut self.trees[tree]);
        }
        self.edited.insert((number, owner));
    }

    fn insert(&mut self, parent: u32, owner: Owner, random: &mut Random) {
        let Some(number) = self.spare.pop() else {
            return;
        };
        let edit = Edit::Insert {
            number,
            parent,
            place: self.desk().draw_place(parent, random),
            content: draw_short_content(random),
        };
        self.make(parent, owner, &edit);
        self.edited.insert((number, owner));
        self.lists.insert(number, owner);
        self.contents.insert(number, owner);
    }

    fn change(&mut self, random: &mut Random) {
        let number = random.pick(&self.trees[MERGED].records());
        let content = draw_short_content(random);
        let edit = Edit::Change { number, content };
        self.make(number, self.contents[&number], &edit);
    }

    /// Only what no one else has edited, and has the same below it everywhere.
    fn delete(&mut self, number: u32, parent: u32, owner: Owner) {
        let below = self.trees[MERGED].below(number);
        let alike = |tree: &usize| self.trees[*tree].below(number) == below;
        let by_another = |&(edited, by): &(u32, Owner)| by != owner && below.contains(&edited);
        if owner.trees().iter().all(alike) && !self.edited.iter().any(by_another) {
            self.make(parent, owner, &Edit::Delete(number));
        }
    }

    fn move_away(&mut self, number: u32, parent: u32, owner: Owner, random: &mut Random) {
        let to = random.pick(&self.trees[MERGED].parents());
        let is_below = |tree: &usize| self.trees[*tree].below(number).contains(&to);
        let may = owner == self.mover || owner == Owner::Both;
        if may && self.lists[&to] == owner && !owner.trees().iter().any(is_below) {
            let edit = Edit::Move {
                number,
                parent: to,
                place: self.desk().draw_place(to, random),
            };
            self.make(parent, owner, &edit);
            self.edited.insert((to, owner));
        }
    }
}
