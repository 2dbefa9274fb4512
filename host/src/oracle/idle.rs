//! How many entries of an accepted list did nothing, worked out from the Rust's answers to the list's prefixes: document 02, b).
//!
//! The Rust gives no such count. An entry is idle if the Rust's answers to the entries before it, and to these and itself, have its id in
//! the same places and logs of equal length.
//!
//! Of an accepted list the Rust may refuse a prefix: with 17 where no voter is left for the moment, with 18 where two have changed. Then
//! both prefixes are asked again of a state with one more incoming voter, which the list does not name; and of `simple` with one and
//! the same tail after both, which makes every id but the entry's own an incoming voter again if it was one, and else no longer. Neither
//! touches the entry's id or the difference of the two logs' lengths.

use super::Rust;
use crate::words::{Change, State};
use raft::eraftpb::{ConfChangeSingle, ConfChangeType};
use raft::{Changer, Configuration, MapChange, MapChangeType, ProgressTracker};
use std::collections::HashSet;

/// A call that takes a list.
#[derive(Clone, Copy)]
pub enum ListCall {
    Simple,
    EnterJoint { auto_leave: bool },
}

type Answer = (Configuration, MapChange);

impl ListCall {
    pub fn ask(self, tracker: &ProgressTracker, list: &[ConfChangeSingle]) -> raft::Result<Answer> {
        let mut changer = Changer::new(tracker);
        match self {
            ListCall::Simple => changer.simple(list),
            ListCall::EnterJoint { auto_leave } => changer.enter_joint(auto_leave, list),
        }
    }
}

/// The idle entries of a list that the Rust accepts.
pub fn count(rust: &mut Rust, state: &State, call: ListCall, list: &[ConfChangeSingle]) -> u64 {
    let found = plainly(rust.tracker(state), call, list);
    let idle = found.iter().filter(|idle| **idle == Some(true)).count();
    let open: Vec<usize> = (0..list.len()).filter(|&place| found[place].is_none()).collect();
    rust.entries.plainly += (list.len() - open.len()) as u64;
    if open.is_empty() {
        return idle as u64;
    }
    rust.entries.repaired += open.len() as u64;
    let tracker = rust.tracker_with_voter(state, list);
    (idle + open.into_iter().filter(|&place| repaired(tracker, call, list, place)).count()) as u64
}

/// The same, each entry judged with one more voter and repairs.
pub fn count_repaired(rust: &mut Rust, state: &State, call: ListCall, list: impl Iterator<Item = Change>) -> u64 {
    let list = super::changes(list);
    let tracker = rust.tracker_with_voter(state, &list);
    (0..list.len()).filter(|&place| repaired(tracker, call, &list, place)).count() as u64
}

/// Of each entry whether it is idle, where the Rust accepts both prefixes.
fn plainly(tracker: &ProgressTracker, call: ListCall, list: &[ConfChangeSingle]) -> Vec<Option<bool>> {
    let mut before = call.ask(tracker, &[]).ok();
    let entry = |place: usize| {
        let (id, after) = (list[place].node_id, call.ask(tracker, &list[..=place]).ok());
        let both = before.as_ref().zip(after.as_ref());
        let idle = both.map(|(before, after)| seen(tracker, before, id) == seen(tracker, after, id));
        before = after;
        idle
    };
    (0..list.len()).map(entry).collect()
}

/// Whether an entry is idle, asked of a tracker with one more voter, and of `simple` with a tail.
fn repaired(tracker: &ProgressTracker, call: ListCall, list: &[ConfChangeSingle], place: usize) -> bool {
    let id = list[place].node_id;
    let tail = match call {
        ListCall::Simple => repairs(tracker, &list[..place], id),
        ListCall::EnterJoint { .. } => vec![],
    };
    let with = |entries: usize| {
        let asked = [&list[..entries], &tail].concat();
        match call.ask(tracker, &asked) {
            Ok(answer) => seen(tracker, &answer, id),
            Err(error) => panic!("the Rust refuses {entries} entries of an accepted list with repairs: {error:?}, {asked:?}"),
        }
    };
    with(place) == with(place + 1)
}

/// What an answer has of one id, and how much it logged.
#[derive(PartialEq, Eq)]
struct Seen {
    sets: [bool; 4],
    tracked: bool,
    logged: usize,
}

fn seen(tracker: &ProgressTracker, (conf, log): &Answer, id: u64) -> Seen {
    let sets = [&*conf.voters().incoming, &*conf.voters().outgoing, conf.learners(), conf.learners_next()];
    let tracked = match log.iter().rfind(|(logged, _)| *logged == id) {
        Some((_, MapChangeType::Add)) => true,
        Some((_, MapChangeType::Remove)) => false,
        None => tracker.get(id).is_some(),
    };
    Seen { sets: sets.map(|set| set.contains(&id)), tracked, logged: log.len() }
}

/// A change for each id but one that these entries make an incoming voter or cease to: the last entry that names an id decides. Of id 0
/// none: its entries are skipped.
fn repairs(tracker: &ProgressTracker, entries: &[ConfChangeSingle], spared: u64) -> Vec<ConfChangeSingle> {
    let mut tail = vec![];
    let mut met = HashSet::from([0, spared]);
    for entry in entries.iter().rev().filter(|entry| met.insert(entry.node_id)) {
        let was = tracker.conf().voters().incoming.contains(&entry.node_id);
        let back = if was { ConfChangeType::AddNode } else { ConfChangeType::RemoveNode };
        if was != (entry.get_change_type() == ConfChangeType::AddNode) {
            tail.push(raft::new_conf_change_single(entry.node_id, back));
        }
    }
    tail
}
