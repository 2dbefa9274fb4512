//! The Rust's side: the words of a call as the text's values, and the text's answers as words. The calls themselves are in oracle/calls.rs.
//! Where the text was not found, no_oracle.rs stands in the place of this file.

mod calls;
mod idle;

use crate::compare::Entries;
use crate::model::{Entry, Model, Replayed};
use crate::script::{listing, Line, Machine, Run};
use crate::words::{self, Block, Change, Ids, CAPACITY};
use raft::eraftpb::{ConfChangeSingle, ConfChangeType, ConfState};
use raft::{bridge, Changer, Configuration, Error, MapChange, MapChangeType, Progress, ProgressState, ProgressTracker};

/// Whether the text was found.
pub const AT_HAND: bool = true;

/// Keeps the tracker of the last state that it was asked about: many calls in turn have the same.
#[derive(Default)]
pub struct Rust {
    last: Option<(Box<words::State>, ProgressTracker)>,
    /// the same state's with one more incoming voter, and that voter
    last_with_voter: Option<(u64, ProgressTracker)>,
    pub entries: Entries,
}

impl Rust {
    /// The text's tracker for a well-formed state.
    pub fn tracker(&mut self, state: &words::State) -> &ProgressTracker {
        let known = matches!(&self.last, Some((last, _)) if **last == *state);
        if !known {
            self.last = Some((Box::new(*state), tracker(state)));
            self.last_with_voter = None;
        }
        &self.last.as_ref().expect("just set").1
    }

    /// The text's tracker for a well-formed state with one more incoming voter, which neither the state nor the list has.
    pub fn tracker_with_voter(&mut self, state: &words::State, list: &[ConfChangeSingle]) -> &ProgressTracker {
        self.tracker(state);
        let known = matches!(&self.last_with_voter, Some((voter, _)) if !names(list, *voter));
        if !known {
            let voter = new_id(state, list);
            self.last_with_voter = Some((voter, with_voter(state, voter)));
        }
        &self.last_with_voter.as_ref().expect("just set").1
    }
}

// ** Words to the text's values

pub fn tracker(state: &words::State) -> ProgressTracker {
    bridge::tracker(configuration(&state.conf), records(state), state.max_inflight as usize)
}

fn records(state: &words::State) -> impl Iterator<Item = (u64, Progress)> + '_ {
    state.tracked.used().iter().zip(&state.records).map(|(&id, record)| (id, progress(record)))
}

/// The tracker of a state that also has this incoming voter. Windows are of no account to a list, so they get no room.
fn with_voter(state: &words::State, voter: u64) -> ProgressTracker {
    let [incoming, outgoing, learners, learners_next] = state.conf.sets().map(Ids::used);
    let incoming = [incoming, &[voter]].concat();
    let conf = bridge::configuration(&incoming, outgoing, learners, learners_next, state.conf.auto_leave == 1);
    let record = progress(&words::Record::zero());
    bridge::tracker(conf, records(state).chain([(voter, record)]), 0)
}

/// The least id that neither the state nor the list has.
fn new_id(state: &words::State, list: &[ConfChangeSingle]) -> u64 {
    let known = |id| state.conf.sets().iter().any(|set| set.used().contains(&id)) || state.tracked.used().contains(&id);
    (1..).find(|&id| !known(id) && !names(list, id)).expect("there are more ids than a state and a list hold")
}

fn names(list: &[ConfChangeSingle], id: u64) -> bool {
    list.iter().any(|change| change.node_id == id)
}

pub fn configuration(conf: &words::Conf) -> Configuration {
    let [incoming, outgoing, learners, learners_next] = conf.sets().map(Ids::used);
    bridge::configuration(incoming, outgoing, learners, learners_next, conf.auto_leave == 1)
}

fn progress(record: &words::Record) -> Progress {
    Progress {
        matched: record.matched,
        next_idx: record.next_idx,
        state: [ProgressState::Probe, ProgressState::Replicate, ProgressState::Snapshot][record.state as usize],
        paused: record.paused == 1,
        pending_snapshot: record.pending_snapshot,
        pending_request_snapshot: record.pending_request_snapshot,
        recent_active: record.recent_active == 1,
        ins: bridge::window(record.max_inflight as usize),
        commit_group_id: record.commit_group_id,
        committed_index: record.committed_index,
    }
}

pub fn changes(list: impl IntoIterator<Item = Change>) -> Vec<ConfChangeSingle> {
    let kinds = [ConfChangeType::AddNode, ConfChangeType::RemoveNode, ConfChangeType::AddLearnerNode];
    list.into_iter().map(|(id, kind)| raft::new_conf_change_single(id, kinds[kind as usize])).collect()
}

pub fn map_change(log: &words::Log) -> MapChange {
    let kind = |entry: &words::Entry| if entry.kind == words::ADD { MapChangeType::Add } else { MapChangeType::Remove };
    log.used().iter().map(|entry| (entry.id, kind(entry))).collect()
}

pub fn conf_state(lists: &words::ConfState) -> ConfState {
    let [voters, learners, voters_outgoing, learners_next] = lists.lists().map(|list| list.used().to_vec());
    ConfState { voters, learners, voters_outgoing, learners_next, auto_leave: lists.auto_leave == 1 }
}

// ** The text's values to words: a hash set is compared as a set, so it is written ascending

fn ascending(ids: impl IntoIterator<Item = u64>) -> Vec<u64> {
    let mut ids: Vec<u64> = ids.into_iter().collect();
    ids.sort_unstable();
    ids
}

/// Incoming, outgoing, learners, learners_next.
fn sets(conf: &Configuration) -> [Vec<u64>; 4] {
    let voters = conf.voters();
    [
        ascending(voters.incoming.iter().copied()),
        ascending(voters.outgoing.iter().copied()),
        ascending(conf.learners().iter().copied()),
        ascending(conf.learners_next().iter().copied()),
    ]
}

pub fn write_configuration(conf: &Configuration, words: &mut words::Conf) {
    for (to, from) in words.sets_mut().into_iter().zip(sets(conf)) {
        *to = Ids::of(&from);
    }
    words.auto_leave = u64::from(*conf.auto_leave());
}

pub fn write_tracker(tracker: &ProgressTracker, words: &mut words::State) {
    write_configuration(tracker.conf(), &mut words.conf);
    let tracked = ascending(tracker.iter().map(|(id, _)| *id));
    words.tracked = Ids::of(&tracked);
    words.records = [words::Record::zero(); CAPACITY];
    for (place, &id) in words.records.iter_mut().zip(&tracked) {
        *place = record(tracker.get(id).expect("it is tracked"));
    }
    words.max_inflight = bridge::max_inflight(tracker) as u64;
}

fn record(progress: &Progress) -> words::Record {
    words::Record {
        matched: progress.matched,
        next_idx: progress.next_idx,
        state: match progress.state {
            ProgressState::Probe => 0,
            ProgressState::Replicate => 1,
            ProgressState::Snapshot => 2,
        },
        paused: u64::from(progress.paused),
        pending_snapshot: progress.pending_snapshot,
        pending_request_snapshot: progress.pending_request_snapshot,
        recent_active: u64::from(progress.recent_active),
        max_inflight: progress.ins.cap() as u64,
        commit_group_id: progress.commit_group_id,
        committed_index: progress.committed_index,
    }
}

pub fn log_entries(log: &MapChange) -> Vec<words::Entry> {
    let kind = |kind: &MapChangeType| match kind {
        MapChangeType::Add => words::ADD,
        MapChangeType::Remove => words::REMOVE,
    };
    log.iter().map(|(id, change)| words::Entry { id: *id, kind: kind(change) }).collect()
}

pub fn write_conf_state(lists: ConfState, words: &mut words::ConfState) {
    let from = [lists.voters, lists.learners, lists.voters_outgoing, lists.learners_next];
    for (to, from) in words.lists_mut().into_iter().zip(from) {
        *to = Ids::of(&ascending(from));
    }
    words.auto_leave = u64::from(lists.auto_leave);
}

// ** The text's messages to the paper's numbers

const MESSAGES: [(&str, u64); 8] = [
    ("config is already joint", 4),
    ("can't leave a non-joint config", 5),
    ("can't apply simple config change in joint config", 6),
    ("learners_next must be empty when not joint", 13),
    ("auto_leave must be false when not joint", 14),
    ("can't make a zero-voter config joint", 15),
    ("removed all voters", 17),
    ("more than one voter changed without entering joint config", 18),
];

/// Messages that name an id between these words. That of 12 says the opposite of what was tested: the id is *not* an outgoing voter.
const MESSAGES_WITH_ID: [(&str, &str, u64); 6] = [
    ("no progress for voter ", "", 7),
    ("no progress for learner ", "", 8),
    ("", " is in learners and outgoing voters", 9),
    ("", " is in learners and incoming voters", 10),
    ("no progress for learner(next) ", "", 11),
    ("", " is in learners_next and outgoing voters", 12),
];

/// The number and the id that an error of the text stands for.
pub fn number_and_id(error: &Error) -> (u64, u64) {
    let Error::ConfChangeError(message) = error;
    if let Some((_, number)) = MESSAGES.iter().find(|(text, _)| text == message) {
        return (*number, 0);
    }
    let named = |(before, after, number): &(&str, &str, u64)| {
        let id = message.strip_prefix(before)?.strip_suffix(after)?.parse().ok()?;
        Some((*number, id))
    };
    match MESSAGES_WITH_ID.iter().find_map(named) {
        Some(found) => found,
        None => panic!("the paper has no number for the Rust's message {message:?}"),
    }
}

// ** Scripts

/// A script's machine on the text. The limit of 64 tracked ids is the paper's: a run that the paper refuses with 16 is not asked of
/// the Rust, and what follows is compared again.
pub struct Replaying {
    tracker: ProgressTracker,
    limits: Option<Replayed>,
}

impl Replaying {
    pub fn with_limits() -> Replaying {
        Replaying { tracker: ProgressTracker::new(256), limits: Some(Replayed::new(Model::PAPER)) }
    }

    /// The Rust alone, as it is timed.
    pub fn plain() -> Replaying {
        Replaying { tracker: ProgressTracker::new(256), limits: None }
    }
}

impl Machine for Replaying {
    fn run(&mut self, run: Run, list: &[Change], next_idx: u64) -> Line {
        if let Some(limits) = &mut self.limits {
            let line = limits.run(run, list, next_idx);
            if matches!(line, Line::Refused { number: 16, .. }) {
                return line;
            }
        }
        let list = changes(list.iter().copied());
        let mut changer = Changer::new(&self.tracker);
        let answer = match run {
            Run::Simple => changer.simple(&list),
            Run::Enter { auto_leave } => changer.enter_joint(auto_leave, &list),
            Run::Leave => changer.leave_joint(),
        };
        match answer {
            Err(error) => {
                let (number, id) = number_and_id(&error);
                Line::Refused { number, id }
            }
            Ok((conf, mut log)) => {
                if run == Run::Leave {
                    log.sort_unstable_by_key(|(id, _)| *id);
                }
                let line = line(&conf, &log);
                self.tracker.apply_conf(conf, log, next_idx);
                line
            }
        }
    }
}

fn line(conf: &Configuration, log: &MapChange) -> Line {
    let entry = |(id, kind): &(u64, MapChangeType)| match kind {
        MapChangeType::Add => Entry::Add(*id),
        MapChangeType::Remove => Entry::Remove(*id),
    };
    let [incoming, outgoing, learners, staged] = sets(conf);
    Line::Accepted { incoming, outgoing, learners, staged, auto_leave: *conf.auto_leave(), log: log.iter().map(entry).collect() }
}

/// The Rust's listing of a script that is not too long.
pub fn rust_listing(script: &[u8]) -> Vec<u8> {
    listing(script, &mut Replaying::with_limits())
}
