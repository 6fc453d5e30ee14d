//! Two edits, one by each desk, that have to do with each other.

use super::edits::{draw_short_content, Desk, Edit};
use super::forest::Forest;
use crate::random::Random;

impl Desk<'_> {
    /// The edits of both desks. Either may turn out to be the first.
    pub fn draw_pair(&self, random: &mut Random) -> [Edit; 2] {
        let records = self.forest.records();
        if records.is_empty() {
            return self.inserted_side_by_side(random);
        }
        let number = random.pick(&records);
        let mut pair = match random.below(12) {
            0 | 1 => self.same(random),
            2 => self.crossed(number, random),
            3 | 4 => self.below_a_deleted(number, random),
            5 => [number, number].map(|number| Edit::Change {
                number,
                content: draw_short_content(random),
            }),
            6 => [number, number].map(|number| self.draw_move(number, random)),
            7 => self.inserted_side_by_side(random),
            8 | 9 => self.neighbours_deleted(number, random),
            10 => [number, number].map(|number| self.draw_move_in_list(number, random)),
            _ => self.moved_from_a_deleted(number, random),
        };
        random.shuffle(&mut pair);
        pair
    }

    fn same(&self, random: &mut Random) -> [Edit; 2] {
        let edit = self.draw_edit(random);
        [edit.clone(), edit]
    }

    /// Each of two records goes under the other, or into what is below it.
    fn crossed(&self, number: u32, random: &mut Random) -> [Edit; 2] {
        let other = random.pick(&self.forest.records());
        let into = |number: u32, above: u32, random: &mut Random| {
            let parent = pick_below(self.forest, above, random);
            let place = self.draw_place(parent, random);
            Edit::Move {
                number,
                parent,
                place,
            }
        };
        [into(number, other, random), into(other, number, random)]
    }

    fn below_a_deleted(&self, number: u32, random: &mut Random) -> [Edit; 2] {
        let below = pick_below(self.forest, number, random);
        let edit = match random.below(5) {
            0 | 1 => Edit::Change {
                number: below,
                content: draw_short_content(random),
            },
            2 => self.insert_under(below, random),
            3 => Edit::Delete(below),
            _ => Edit::Reverse(below),
        };
        [Edit::Delete(number), edit]
    }

    /// Under one parent, at the same place or not.
    fn inserted_side_by_side(&self, random: &mut Random) -> [Edit; 2] {
        let parent = random.pick(&self.forest.parents());
        let insert = self.insert_under(parent, random);
        let other = match (&insert, self.insert_under(parent, random)) {
            (
                Edit::Insert { place, .. },
                Edit::Insert {
                    number, content, ..
                },
            ) if random.one_in(2) => Edit::Insert {
                number,
                parent,
                place: *place,
                content,
            },
            (_, other) => other,
        };
        [insert, other]
    }

    fn neighbours_deleted(&self, number: u32, random: &mut Random) -> [Edit; 2] {
        let parent = self.forest.parent_of(number).unwrap_or(0);
        let list = &self.forest.lists[&parent];
        let place = list.iter().position(|&child| child == number);
        let next = place.and_then(|place| list.get(place + 1));
        let other = next.copied().unwrap_or(random.pick(list));
        [Edit::Delete(number), Edit::Delete(other)]
    }

    /// One desk takes out what the other deletes with all above it.
    fn moved_from_a_deleted(&self, number: u32, random: &mut Random) -> [Edit; 2] {
        let below = pick_below(self.forest, number, random);
        [Edit::Delete(number), self.draw_move(below, random)]
    }
}

fn pick_below(forest: &Forest, number: u32, random: &mut Random) -> u32 {
    let below: Vec<u32> = forest.below(number).into_iter().collect();
    random.pick(&below)
}
