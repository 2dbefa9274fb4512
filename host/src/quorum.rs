//! Quorums, and whether two configurations have quorums apart from each other. Document 02, i): "A quorum is a group of ids with more than
//! half of incoming and, when joint, more than half of outgoing, as the Raft dissertation's section 4.3 has it." No group has more than
//! half of an empty set, so a configuration without an incoming voter has no quorum.

use crate::model::{Conf, Set};
use std::array::from_fn;
use std::collections::BTreeMap;

/// A quorum of the configuration before a step, and one of the configuration after it.
pub type Pair = (Set, Set);

/// What a quorum is: the paper's definition, or one that is wrong on purpose (groups/quorums.rs).
#[derive(Clone, Copy, Debug, PartialEq, Eq)]
pub enum Definition {
    Paper,
    /// wrong: at least half in the place of more than half
    AtLeastHalf,
    /// wrong: outgoing is not asked, whether joint or not
    IncomingAlone,
}

impl Definition {
    /// "a group of ids with more than half of incoming and, when joint, more than half of outgoing"
    pub fn is_quorum(self, group: &Set, conf: &Conf) -> bool {
        let has = |set: &Set| group.intersection(set).count();
        self.enough([has(&conf.incoming), has(&conf.outgoing)], conf)
    }

    /// The same of a group that has so many ids of incoming and so many of outgoing.
    fn enough(self, [incoming, outgoing]: [usize; 2], conf: &Conf) -> bool {
        let asked = conf.joint() && self != Definition::IncomingAlone;
        self.most(incoming, &conf.incoming) && (!asked || self.most(outgoing, &conf.outgoing))
    }

    /// "more than half"
    fn most(self, has: usize, set: &Set) -> bool {
        2 * has > set.len() || (self == Definition::AtLeastHalf && 2 * has == set.len())
    }

    /// Two quorums, one of each configuration, that have no id in common, if there are any: of any size, and none is missed.
    ///
    /// An id more never makes a quorum less of one. So only those pairs are looked at in which each voter is in one of the two groups: in
    /// the first if it does not vote after, in the second if it does not vote before. Voters that are in the same ones of the four voter
    /// sets are alike: how many of them the first group has is all that matters.
    pub fn apart(self, before: &Conf, after: &Conf) -> Option<Pair> {
        let classes = classes(before, after);
        let mut ways = Ways::from([([0; 4], vec![])]);
        for (class, ids) in &classes {
            ways = shared_out(&ways, *class, ids.len());
        }
        let quorums = |has: &Had| self.enough([has[0], has[1]], before) && self.enough([has[2], has[3]], after);
        let (_, firsts) = ways.iter().find(|(has, _)| quorums(has))?;
        let mut pair = Pair::default();
        for (ids, &first) in classes.values().zip(firsts) {
            pair.0.extend(&ids[..first]);
            pair.1.extend(&ids[first..]);
        }
        Some(pair)
    }

    /// The same for few ids, plainly: every pair of a quorum before and a quorum after, among all groups of the ids there and one that is
    /// nowhere. How many such pairs there are; or the first of them without a common id that is a voter before and after.
    pub fn apart_plainly(self, before: &Conf, after: &Conf) -> Result<usize, Pair> {
        let groups = groups_of(&ids(before, after));
        let quorums = |conf: &Conf| -> Vec<&Set> { groups.iter().filter(|group| self.is_quorum(group, conf)).collect() };
        let (firsts, seconds) = (quorums(before), quorums(after));
        let voter = |id: &u64, conf: &Conf| conf.incoming.contains(id) || conf.outgoing.contains(id);
        for &first in &firsts {
            for &second in &seconds {
                if !first.intersection(second).any(|id| voter(id, before) && voter(id, after)) {
                    return Err((first.clone(), second.clone()));
                }
            }
        }
        Ok(firsts.len() * seconds.len())
    }
}

/// Every id of two configurations, and one that is nowhere.
fn ids(before: &Conf, after: &Conf) -> Set {
    let mut ids: Set = before.members().union(&after.members()).copied().collect();
    ids.extend((1..).find(|id| !ids.contains(id)));
    ids
}

/// Every group of these ids: for few of them.
pub fn groups_of(ids: &Set) -> Vec<Set> {
    let chosen = |choice: usize| ids.iter().enumerate().filter(move |(place, _)| choice >> place & 1 == 1).map(|(_, id)| *id);
    (0..1 << ids.len()).map(|choice| chosen(choice).collect()).collect()
}

/// How many groups of so many ids, all voters among them, are quorums, counted without looking at any: for each number of those who are in
/// both voter sets, the choices of them, times those of enough others of incoming to make more than half of it, times when joint those of
/// enough others of outgoing; and with each any choice of the ids that do not vote.
pub fn how_many(conf: &Conf, ids: usize) -> usize {
    let both = conf.incoming.intersection(&conf.outgoing).count();
    let at_least = |least: usize, of: usize| -> usize { (least..=of).map(|count| choices(of, count)).sum() };
    let enough = |set: &Set, had: usize| at_least((set.len() / 2 + 1).saturating_sub(had), set.len() - both);
    let outgoing = |had: usize| if conf.joint() { enough(&conf.outgoing, had) } else { 1 };
    let quorums: usize = (0..=both).map(|had| choices(both, had) * enough(&conf.incoming, had) * outgoing(had)).sum();
    quorums << (ids - (conf.incoming.len() + conf.outgoing.len() - both))
}

/// How many choices of so many there are.
fn choices(of: usize, count: usize) -> usize {
    (0..count).fold(1, |ways, place| ways * (of - place) / (place + 1))
}

// ** Voters that are alike

/// Which of the four voter sets an id is in: before's incoming and outgoing, after's incoming and outgoing.
type Class = [bool; 4];

/// How many ids the first group has of before's two sets, and the second of after's.
type Had = [usize; 4];

/// One way to come to each of these: how many of each class the first group has. Since a set has at most 64 ids, there are at most 65^4
/// of them. Those who vote both before and after a step are of two classes at most, and then there are no more than 33 * 33.
type Ways = BTreeMap<Had, Vec<usize>>;

fn classes(before: &Conf, after: &Conf) -> BTreeMap<Class, Vec<u64>> {
    let sets = [&before.incoming, &before.outgoing, &after.incoming, &after.outgoing];
    let voters: Set = sets.into_iter().flatten().copied().collect();
    let mut classes = BTreeMap::<Class, Vec<u64>>::new();
    for id in voters {
        classes.entry(sets.map(|set| set.contains(&id))).or_default().push(id);
    }
    classes
}

/// Each way, with every way to share out the ids of one more class.
fn shared_out(ways: &Ways, class: Class, ids: usize) -> Ways {
    let [incoming_before, outgoing_before, incoming_after, outgoing_after] = class;
    let firsts = match (incoming_before || outgoing_before, incoming_after || outgoing_after) {
        (true, true) => 0..=ids,
        (true, false) => ids..=ids,
        (false, _) => 0..=0,
    };
    let mut longer = Ways::new();
    for (has, before) in ways {
        for first in firsts.clone() {
            let given = [first, first, ids - first, ids - first];
            let has = from_fn(|set| has[set] + if class[set] { given[set] } else { 0 });
            longer.entry(has).or_insert_with(|| [&before[..], &[first]].concat());
        }
    }
    longer
}
