//! Facts and edits: what a table says of positions and of contents, and what
//! two facts can disagree on.

use crate::table::{Record, TOP};
use std::collections::{BTreeMap, BTreeSet};

/// Who stands beside another in the list of a parent. START and END are never
/// records.
#[derive(Clone, Copy, Debug, PartialEq, Eq, PartialOrd, Ord)]
pub enum Neighbour {
    Start,
    Record(u32),
    End,
}

/// Under `parent`, `before` is directly followed by `after`.
#[derive(Clone, Copy, Debug, PartialEq, Eq, PartialOrd, Ord)]
pub struct PositionFact {
    pub parent: u32,
    pub before: Neighbour,
    pub after: Neighbour,
}

impl PositionFact {
    /// The records that the fact gives its parent to.
    fn children(&self) -> impl Iterator<Item = u32> {
        [self.before, self.after]
            .into_iter()
            .filter_map(|neighbour| match neighbour {
                Neighbour::Record(number) => Some(number),
                Neighbour::Start | Neighbour::End => None,
            })
    }
}

#[derive(Clone, Copy, Debug, PartialEq, Eq, PartialOrd, Ord)]
pub struct ContentFact<'t> {
    pub number: u32,
    pub content: &'t [u8],
}

#[derive(Clone, Debug, Default, PartialEq, Eq)]
pub struct Facts<'t> {
    pub positions: BTreeSet<PositionFact>,
    pub contents: BTreeSet<ContentFact<'t>>,
}

impl<'t> Facts<'t> {
    /// Of a table, or of any records of which each list stands in its order.
    pub fn of(records: &[Record<'t>]) -> Facts<'t> {
        // The top and every record have a list, even if it is childless.
        let mut lists = BTreeMap::from([(TOP, Vec::new())]);
        for record in records {
            lists.insert(record.number, Vec::new());
        }
        for record in records {
            lists.entry(record.parent).or_default().push(record.number);
        }
        let positions = lists
            .iter()
            .flat_map(|(&parent, children)| list_facts(parent, children));
        let contents = records.iter().map(|record| ContentFact {
            number: record.number,
            content: record.content,
        });
        Facts {
            positions: positions.collect(),
            contents: contents.collect(),
        }
    }

    /// Those that the other lacks.
    pub fn lacking_in(&self, other: &Facts<'t>) -> Facts<'t> {
        Facts {
            positions: &self.positions - &other.positions,
            contents: &self.contents - &other.contents,
        }
    }

    fn extend(&mut self, other: Facts<'t>) {
        self.positions.extend(other.positions);
        self.contents.extend(other.contents);
    }
}

fn list_facts(parent: u32, children: &[u32]) -> Vec<PositionFact> {
    let mut neighbours = vec![Neighbour::Start];
    neighbours.extend(children.iter().copied().map(Neighbour::Record));
    neighbours.push(Neighbour::End);
    neighbours
        .windows(2)
        .map(|pair| PositionFact {
            parent,
            before: pair[0],
            after: pair[1],
        })
        .collect()
}

/// The facts of the branches that old lacks.
pub fn edits<'t>(old: &Facts<'t>, branches: &[Facts<'t>]) -> Facts<'t> {
    let mut edits = Facts::default();
    for branch in branches {
        edits.extend(branch.lacking_in(old));
    }
    edits
}

/// All edits, with every old fact that disagrees with no edit.
pub fn kept<'t>(old: &Facts<'t>, edits: &Facts<'t>, said: &Said<'t>) -> Facts<'t> {
    let mut kept = edits.clone();
    let positions = old.positions.iter().copied();
    kept.positions
        .extend(positions.filter(|fact| !said.disagrees_on_position(fact)));
    let contents = old.contents.iter().copied();
    kept.contents
        .extend(contents.filter(|fact| !said.disagrees_on_content(fact)));
    kept
}

/// Values given to keys. Facts that give one key different values disagree.
#[derive(Clone, Debug)]
struct Given<K, V>(BTreeMap<K, BTreeSet<V>>);

impl<K: Ord + Copy, V: Ord> Given<K, V> {
    fn by(pairs: impl Iterator<Item = (K, V)>) -> Given<K, V> {
        let mut given = BTreeMap::<K, BTreeSet<V>>::new();
        for (key, value) in pairs {
            given.entry(key).or_default().insert(value);
        }
        Given(given)
    }

    fn gives_another(&self, key: K, value: V) -> bool {
        self.0
            .get(&key)
            .is_some_and(|values| values.iter().any(|other| *other != value))
    }

    /// The keys that were given different values.
    fn disagreements(&self) -> impl Iterator<Item = K> + '_ {
        self.0
            .iter()
            .filter(|(_, values)| values.len() > 1)
            .map(|(&key, _)| key)
    }
}

/// What facts say, by the things that two facts can disagree on.
#[derive(Clone, Debug)]
pub struct Said<'t> {
    /// By record.
    contents: Given<u32, &'t [u8]>,
    /// By record.
    parents: Given<u32, u32>,
    /// By parent and the one before.
    followers: Given<(u32, Neighbour), Neighbour>,
    /// By parent and the one after.
    forerunners: Given<(u32, Neighbour), Neighbour>,
}

impl<'t> Said<'t> {
    pub fn by(facts: &Facts<'t>) -> Said<'t> {
        let positions = || facts.positions.iter();
        let contents = facts.contents.iter();
        Said {
            contents: Given::by(contents.map(|fact| (fact.number, fact.content))),
            parents: Given::by(
                positions().flat_map(|fact| fact.children().map(|child| (child, fact.parent))),
            ),
            followers: Given::by(positions().map(|fact| ((fact.parent, fact.before), fact.after))),
            forerunners: Given::by(
                positions().map(|fact| ((fact.parent, fact.after), fact.before)),
            ),
        }
    }

    fn disagrees_on_content(&self, fact: &ContentFact<'t>) -> bool {
        self.contents.gives_another(fact.number, fact.content)
    }

    fn disagrees_on_position(&self, fact: &PositionFact) -> bool {
        let PositionFact {
            parent,
            before,
            after,
        } = *fact;
        fact.children()
            .any(|child| self.parents.gives_another(child, parent))
            || self.followers.gives_another((parent, before), after)
            || self.forerunners.gives_another((parent, after), before)
    }

    /// The least record that is given different contents.
    pub fn content_clash(&self) -> Option<u32> {
        self.contents.disagreements().min()
    }

    /// The least record that is given different parents.
    pub fn parent_clash(&self) -> Option<u32> {
        self.parents.disagreements().min()
    }

    /// The least parent under which followers or forerunners differ.
    pub fn neighbour_clash(&self) -> Option<u32> {
        let followers = self.followers.disagreements();
        let forerunners = self.forerunners.disagreements();
        followers.chain(forerunners).map(|(parent, _)| parent).min()
    }
}
