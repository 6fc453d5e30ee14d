//! The merge of facts: the conditions of codes 21 to 25, and the walk.

use crate::facts::{edits, kept, Facts, Neighbour, Said};
use crate::table::{Record, TOP};
use std::collections::{BTreeMap, BTreeSet};

const CONTENT_CLASH: u32 = 21;
const PARENT_CLASH: u32 = 22;
const NEIGHBOUR_CLASH: u32 = 23;
const BROKEN_LIST: u32 = 24;
const LOST_EDIT: u32 = 25;

/// Why facts do not merge: the code, and the record or parent it is given for.
#[derive(Clone, Copy, Debug, PartialEq, Eq)]
pub struct Clash {
    pub code: u32,
    pub place: u32,
}

/// The records of the merged tree in written order.
pub fn merged_records<'t>(
    old: &Facts<'t>,
    branches: &[Facts<'t>],
) -> Result<Vec<Record<'t>>, Clash> {
    let edits = edits(old, branches);
    let said = Said::by(&edits);
    refuse(CONTENT_CLASH, said.content_clash())?;
    refuse(PARENT_CLASH, said.parent_clash())?;
    refuse(NEIGHBOUR_CLASH, said.neighbour_clash())?;
    let walk = Walk::along(&kept(old, &edits, &said));
    refuse(BROKEN_LIST, walk.broken.first().copied())?;
    refuse(LOST_EDIT, lost_edit(&edits, &Facts::of(&walk.reached)))?;
    Ok(walk.reached)
}

fn refuse(code: u32, place: Option<u32>) -> Result<(), Clash> {
    match place {
        Some(place) => Err(Clash { code, place }),
        None => Ok(()),
    }
}

/// The least place of an edit that is not among the facts of the merged tree: a
/// content fact's record, a position fact's parent.
fn lost_edit(edits: &Facts, merged: &Facts) -> Option<u32> {
    let lost = edits.lacking_in(merged);
    let records = lost.contents.iter().map(|fact| fact.number);
    let parents = lost.positions.iter().map(|fact| fact.parent);
    records.chain(parents).min()
}

/// The walk from the top. It is begun once no two edits disagree, so that the
/// kept facts have one follower at most for each, and one content.
struct Walk<'t> {
    followers: BTreeMap<(u32, Neighbour), Neighbour>,
    contents: BTreeMap<u32, &'t [u8]>,
    /// The records met, in written order.
    reached: Vec<Record<'t>>,
    /// The reached parents whose lists stop before END.
    broken: BTreeSet<u32>,
}

impl<'t> Walk<'t> {
    fn along(kept: &Facts<'t>) -> Walk<'t> {
        let followers = kept.positions.iter();
        let contents = kept.contents.iter();
        let mut walk = Walk {
            followers: followers
                .map(|fact| ((fact.parent, fact.before), fact.after))
                .collect(),
            contents: contents.map(|fact| (fact.number, fact.content)).collect(),
            reached: Vec::new(),
            broken: BTreeSet::new(),
        };
        walk.list(TOP);
        walk
    }

    /// From START until END, or until no kept fact goes on.
    fn list(&mut self, parent: u32) {
        let mut before = Neighbour::Start;
        loop {
            match self.followers.get(&(parent, before)) {
                Some(&Neighbour::Record(number)) => {
                    self.reached.push(Record {
                        number,
                        parent,
                        content: self.contents[&number],
                    });
                    self.list(number);
                    before = Neighbour::Record(number);
                }
                Some(Neighbour::End) => return,
                Some(Neighbour::Start) | None => {
                    self.broken.insert(parent);
                    return;
                }
            }
        }
    }
}
