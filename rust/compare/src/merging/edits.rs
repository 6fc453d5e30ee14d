//! What a desk can do to a table.

use super::forest::Forest;
use crate::random::Random;
use crate::tables::draw_content;

#[derive(Clone, Debug)]
pub enum Edit {
    Insert {
        number: u32,
        parent: u32,
        place: usize,
        content: Vec<u8>,
    },
    Change {
        number: u32,
        content: Vec<u8>,
    },
    Move {
        number: u32,
        parent: u32,
        place: usize,
    },
    Delete(u32),
    Dissolve(u32),
    Rename {
        number: u32,
        new: u32,
    },
    /// The list of a parent.
    Reverse(u32),
}

impl Edit {
    /// Where the edit can't be made any more, nothing is done.
    pub fn make(&self, forest: &mut Forest) {
        let is_parent = |parent| forest.lists.contains_key(parent);
        match self {
            Edit::Insert {
                number,
                parent,
                place,
                content,
            } if !forest.has(*number) && is_parent(parent) => {
                forest.insert(*number, *parent, *place, content);
            }
            Edit::Change { number, content } if forest.has(*number) => {
                forest.change(*number, content);
            }
            Edit::Move {
                number,
                parent,
                place,
            } if forest.has(*number)
                && is_parent(parent)
                && !forest.below(*number).contains(parent) =>
            {
                forest.move_to(*number, *parent, *place);
            }
            Edit::Delete(number) if forest.has(*number) => forest.delete(*number),
            Edit::Dissolve(number) if forest.has(*number) => forest.dissolve(*number),
            Edit::Rename { number, new } if forest.has(*number) && !forest.has(*new) => {
                forest.rename(*number, *new);
            }
            Edit::Reverse(parent) => {
                if let Some(list) = forest.lists.get_mut(parent) {
                    list.reverse();
                }
            }
            _ => (),
        }
    }
}

/// What edits are drawn from.
pub struct Desk<'a> {
    pub forest: &'a Forest,
    /// Numbers that the old table has not. Both desks take from the same few,
    /// so that they meet at times.
    pub spare: &'a [u32],
}

impl Desk<'_> {
    pub fn draw_edit(&self, random: &mut Random) -> Edit {
        let records = self.forest.records();
        if records.is_empty() {
            return self.draw_insert(random);
        }
        let number = random.pick(&records);
        match random.below(16) {
            0..=4 => self.draw_insert(random),
            5..=7 => Edit::Change {
                number,
                content: draw_short_content(random),
            },
            8 | 9 => self.draw_move(number, random),
            10 | 11 => self.draw_move_in_list(number, random),
            12 | 13 => Edit::Delete(number),
            14 => Edit::Rename {
                number,
                new: random.pick(self.spare),
            },
            _ => match random.one_in(2) {
                true => Edit::Dissolve(number),
                false => Edit::Reverse(random.pick(&self.forest.parents())),
            },
        }
    }

    pub fn draw_insert(&self, random: &mut Random) -> Edit {
        let parent = random.pick(&self.forest.parents());
        self.insert_under(parent, random)
    }

    pub fn insert_under(&self, parent: u32, random: &mut Random) -> Edit {
        Edit::Insert {
            number: random.pick(self.spare),
            parent,
            place: self.draw_place(parent, random),
            content: draw_short_content(random),
        }
    }

    /// To any parent.
    pub fn draw_move(&self, number: u32, random: &mut Random) -> Edit {
        let parent = random.pick(&self.forest.parents());
        Edit::Move {
            number,
            parent,
            place: self.draw_place(parent, random),
        }
    }

    pub fn draw_move_in_list(&self, number: u32, random: &mut Random) -> Edit {
        let parent = self.forest.parent_of(number).unwrap_or(0);
        Edit::Move {
            number,
            parent,
            place: self.draw_place(parent, random),
        }
    }

    pub fn draw_place(&self, parent: u32, random: &mut Random) -> usize {
        random.between(0, self.forest.lists[&parent].len())
    }
}

/// Mostly one of few, so that equal ones meet.
pub fn draw_short_content(random: &mut Random) -> Vec<u8> {
    match random.below(8) {
        0 => draw_content(120, random),
        1 | 2 => {
            let length = random.between(1, 30);
            draw_content(length, random)
        }
        _ => random.pick(&[&b"x"[..], b"y", b"hold\tturn=L"]).to_vec(),
    }
}
