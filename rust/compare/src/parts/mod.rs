//! The parts of the comparison. Each makes texts of one sort.

mod alone;
pub mod damaged;
mod good;
mod limits;
pub mod merges;
mod near;
mod pairs;
mod raw;
mod trees;

use crate::case::Case;
use crate::merging::Triple;
use crate::random::Random;
use crate::tidying::Rooms;

pub enum Source<C> {
    /// Always the same.
    Listed(fn() -> Vec<C>),
    /// Always the same, and so many that they are counted beside those wanted.
    Every(fn() -> Vec<C>),
    /// Drawn one at a time; the share is in parts of a hundred.
    Drawn {
        share: usize,
        draw: fn(&mut Random) -> C,
    },
}

pub struct Part<C> {
    pub name: &'static str,
    pub source: Source<C>,
    pub rooms: Rooms,
}

/// A part's place goes into its random generators, so new ones come last.
pub const PARTS: [Part<Case>; 13] = [
    listed("limits", limits::cases),
    listed("alone", alone::cases),
    listed("pairs-one-line", pairs::on_one_line),
    listed("pairs-two-lines", pairs::on_two_lines),
    drawn("raw", 9, raw::draw),
    drawn("near", 15, near::draw),
    drawn("good", 12, good::draw),
    drawn("damaged", 25, damaged::draw),
    listed("tidy-shapes", trees::shapes).in_many_rooms(),
    drawn("tidy-trees", 19, trees::draw).in_many_rooms(),
    drawn("tidy-turns", 10, trees::draw_turns).in_many_rooms(),
    drawn("tidy-full", 2, trees::draw_full).in_many_rooms(),
    drawn("tidy-damaged", 8, damaged::draw).in_many_rooms(),
];

/// They follow the others.
pub const MERGE_PARTS: [Part<Triple>; 11] = [
    listed("merge-letters", merges::letters::triples).in_many_rooms(),
    listed("merge-limits", merges::limits::triples),
    drawn("merge-edits", 24, merges::edited::draw).in_many_rooms(),
    drawn("merge-pairs", 24, merges::edited::draw_pairs).in_many_rooms(),
    drawn("merge-clashes", 8, merges::clashes::draw),
    drawn("merge-disjoint", 12, merges::disjoint::draw).in_many_rooms(),
    drawn("merge-alone", 6, merges::alone::draw),
    drawn("merge-refused", 18, merges::damaged::draw),
    drawn("merge-damaged", 5, merges::damaged::draw_loose),
    drawn("merge-large", 3, merges::large::draw),
    every("merge-every", merges::every::triples),
];

const fn listed<C>(name: &'static str, cases: fn() -> Vec<C>) -> Part<C> {
    Part {
        name,
        source: Source::Listed(cases),
        rooms: Rooms::Few,
    }
}

/// In one room, so that they can be so many.
const fn every<C>(name: &'static str, cases: fn() -> Vec<C>) -> Part<C> {
    Part {
        name,
        source: Source::Every(cases),
        rooms: Rooms::One,
    }
}

const fn drawn<C>(name: &'static str, share: usize, draw: fn(&mut Random) -> C) -> Part<C> {
    Part {
        name,
        source: Source::Drawn { share, draw },
        rooms: Rooms::Few,
    }
}

impl<C> Part<C> {
    const fn in_many_rooms(mut self) -> Part<C> {
        self.rooms = Rooms::Many;
        self
    }
}
