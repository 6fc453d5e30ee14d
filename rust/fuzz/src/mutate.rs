//! Triples made from one that is kept: one to four small changes.

use crate::corpus::Corpus;
use crate::features::Texts;
use compare::merging::edits::Desk;
use compare::merging::forest::Forest;
use compare::parts::damaged::damage;
use compare::parts::merges::edited::draw_spare;
use compare::random::Random;

type Change = fn(&mut Texts, &Corpus, &mut Random);

/// What stands more than once is drawn more often. Edits leave tables that can
/// be read, the others often do not.
const CHANGES: [Change; 18] = [
    edit,
    edit,
    edit,
    edit,
    edit,
    edit,
    same_edit,
    same_edit,
    same_edit,
    same_edit,
    damage_one,
    damage_alike,
    flip_a_bit,
    take_lines,
    join_halves,
    take_a_text,
    trade_texts,
    take_from_another,
];

pub fn mutated(texts: &Texts, corpus: &Corpus, random: &mut Random) -> Texts {
    let mut texts = texts.clone();
    for _ in 0..random.pick(&[1, 1, 1, 2, 2, 3, 4]) {
        random.pick(&CHANGES)(&mut texts, corpus, random);
    }
    texts
}

/// One table, mostly a desk's, edited as a desk does it.
fn edit(texts: &mut Texts, _: &Corpus, random: &mut Random) {
    let at = random.pick(&[0, 1, 1, 1, 2, 2, 2]);
    edit_alike(texts, &[at], random);
}

fn same_edit(texts: &mut Texts, _: &Corpus, random: &mut Random) {
    let places = random.pick(&[&[1, 2][..], &[1, 2], &[0, 1], &[0, 2], &[0, 1, 2]]);
    edit_alike(texts, places, random);
}

/// The edit is drawn for the first of the tables and made in all that it can
/// be made in.
fn edit_alike(texts: &mut Texts, places: &[usize], random: &mut Random) {
    let Some(forest) = Forest::read(&texts[places[0]]) else {
        return;
    };
    let spare = draw_spare(&forest, SPARE, random);
    let desk = Desk {
        forest: &forest,
        spare: &spare,
    };
    let edit = desk.draw_edit(random);
    for &at in places {
        if let Some(mut forest) = Forest::read(&texts[at]) {
            edit.make(&mut forest);
            texts[at] = forest.any_text(random);
        }
    }
}

/// How many numbers an edit can choose from that the table has not.
const SPARE: usize = 3;

fn damage_one(texts: &mut Texts, _: &Corpus, random: &mut Random) {
    damage(&mut texts[random.below(3)], random);
}

/// The same damage to all, where they are alike.
fn damage_alike(texts: &mut Texts, _: &Corpus, random: &mut Random) {
    let before = random.clone();
    for text in texts {
        *random = before.clone();
        damage(text, random);
    }
}

fn flip_a_bit(texts: &mut Texts, _: &Corpus, random: &mut Random) {
    let text = &mut texts[random.below(3)];
    if !text.is_empty() {
        let place = random.below(text.len());
        text[place] ^= 1 << random.below(8);
    }
}

/// Some lines of one text go into another, in place of some there or not.
fn take_lines(texts: &mut Texts, _: &Corpus, random: &mut Random) {
    let taken = texts[random.below(3)].clone();
    let into = &mut texts[random.below(3)];
    let mut lines = lines(into);
    let taken = some(&self::lines(&taken), random);
    let from = random.between(0, lines.len());
    let most = (from + taken.len()).min(lines.len());
    let to = random.pick(&[from, most]);
    lines.splice(from..to, taken);
    *into = lines.concat();
}

/// A few that follow each other.
fn some(lines: &[Vec<u8>], random: &mut Random) -> Vec<Vec<u8>> {
    let from = random.between(0, lines.len());
    let count = random.between(0, (lines.len() - from).min(4));
    lines[from..][..count].to_vec()
}

/// The first lines of one text with the last ones of another.
fn join_halves(texts: &mut Texts, _: &Corpus, random: &mut Random) {
    let [head, tail] = [(); 2].map(|()| lines(&texts[random.below(3)]));
    let head = &head[..random.between(0, head.len())];
    let tail = &tail[random.between(0, tail.len())..];
    texts[random.below(3)] = [head, tail].concat().concat();
}

fn take_a_text(texts: &mut Texts, _: &Corpus, random: &mut Random) {
    texts[random.below(3)] = texts[random.below(3)].clone();
}

fn trade_texts(texts: &mut Texts, _: &Corpus, random: &mut Random) {
    texts.swap(random.below(3), random.below(3));
}

/// A text of another kept triple.
fn take_from_another(texts: &mut Texts, corpus: &Corpus, random: &mut Random) {
    if let Some(other) = corpus.pick(random) {
        texts[random.below(3)] = other[random.below(3)].clone();
    }
}

pub fn lines(text: &[u8]) -> Vec<Vec<u8>> {
    text.split_inclusive(|&byte| byte == b'\n')
        .map(<[u8]>::to_vec)
        .collect()
}

#[cfg(test)]
mod tests {
    use super::*;

    fn texts() -> Texts {
        let table = b"1\t0\tx\n2\t1\ty\n3\t1\tz\n";
        [(); 3].map(|()| table.to_vec())
    }

    #[test]
    fn every_change_changes_something() {
        let corpus = Corpus::default();
        for (place, change) in CHANGES.iter().enumerate() {
            let mut random = Random::new(place as u64);
            let mut changed = 0;
            for _ in 0..100 {
                let mut after = texts();
                damage_one(&mut after, &corpus, &mut random);
                let before = after.clone();
                change(&mut after, &corpus, &mut random);
                changed += usize::from(after != before);
            }
            // Without a kept triple there is nothing to take from another.
            let wanted = usize::from(place + 1 < CHANGES.len());
            assert_eq!(changed.min(1), wanted, "{place}");
        }
    }

    #[test]
    fn edits_leave_tables() {
        let mut random = Random::new(1);
        let mut texts = texts();
        for _ in 0..500 {
            random.pick(&[edit, same_edit])(&mut texts, &Corpus::default(), &mut random);
            for text in &texts {
                assert_eq!(second::check(text).code, 0);
            }
        }
    }

    #[test]
    fn empty_texts_can_be_changed() {
        let mut random = Random::new(1);
        for change in CHANGES {
            for _ in 0..50 {
                change(&mut Texts::default(), &Corpus::default(), &mut random);
            }
        }
    }
}
