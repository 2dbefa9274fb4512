//! The paper's values, and how the words of a call hold them. "The state and its numbers".

use crate::words;
use std::collections::{BTreeMap, BTreeSet};

pub type Set = BTreeSet<u64>;
pub use crate::words::Record;

#[derive(Clone, PartialEq, Eq, Default)]
pub struct Conf {
    pub incoming: Set,
    pub outgoing: Set,
    pub learners: Set,
    pub staged: Set,
    pub auto_leave: bool,
}

#[derive(Clone, PartialEq, Eq)]
pub struct State {
    pub conf: Conf,
    pub tracked: BTreeMap<u64, Record>,
    pub max_inflight: u64,
}

#[derive(Clone, Copy, PartialEq, Eq)]
pub enum Entry {
    Add(u64),
    Remove(u64),
}

/// Lists "in any order, repeats and zeros allowed".
#[derive(Clone, Default)]
pub struct ConfState {
    pub voters: Vec<u64>,
    pub learners: Vec<u64>,
    pub voters_outgoing: Vec<u64>,
    pub learners_next: Vec<u64>,
    pub auto_leave: bool,
}

#[derive(Clone, Copy, Debug, PartialEq, Eq)]
pub struct Refusal {
    pub number: u64,
    pub id: u64,
}

impl Conf {
    /// "Joint means outgoing is not empty."
    pub fn joint(&self) -> bool {
        !self.outgoing.is_empty()
    }

    pub fn members(&self) -> Set {
        [&self.incoming, &self.outgoing, &self.learners, &self.staged].into_iter().flatten().copied().collect()
    }

    /// The configuration that the words hold, unless it is malformed.
    pub fn read(words: &words::Conf) -> Option<Conf> {
        Some(Conf {
            incoming: read_set(&words.incoming)?,
            outgoing: read_set(&words.outgoing)?,
            learners: read_set(&words.learners)?,
            staged: read_set(&words.learners_next)?,
            auto_leave: words.auto_leave == 1,
        })
    }

    pub fn write(&self, words: &mut words::Conf) {
        let sets = [&self.incoming, &self.outgoing, &self.learners, &self.staged];
        for (to, from) in words.sets_mut().into_iter().zip(sets) {
            *to = ids(from);
        }
        words.auto_leave = u64::from(self.auto_leave);
    }
}

impl State {
    /// "Fresh: nothing in any set, nothing tracked, the flag false, `max_inflight` as given."
    pub fn fresh(max_inflight: u64) -> State {
        State { conf: Conf::default(), tracked: BTreeMap::new(), max_inflight }
    }

    /// The state that the words hold, unless it is malformed: "unused places hold zero, unused records the default state, zeros and
    /// false".
    pub fn read(words: &words::State) -> Option<State> {
        let conf = Conf::read(&words.conf)?;
        let tracked = read_set(&words.tracked)?;
        if words.records[tracked.len()..].iter().any(|record| *record != UNUSED) {
            return None;
        }
        let tracked = tracked.into_iter().zip(words.records).collect();
        Some(State { conf, tracked, max_inflight: words.max_inflight })
    }

    pub fn write(&self, words: &mut words::State) {
        self.conf.write(&mut words.conf);
        words.tracked = ids(self.tracked.keys());
        words.records = [UNUSED; words::CAPACITY];
        for (place, record) in words.records.iter_mut().zip(self.tracked.values()) {
            *place = *record;
        }
        words.max_inflight = self.max_inflight;
    }
}

pub const UNUSED: Record = Record {
    matched: 0,
    next_idx: 0,
    state: 0,
    paused: 0,
    pending_snapshot: 0,
    pending_request_snapshot: 0,
    recent_active: 0,
    max_inflight: 0,
    commit_group_id: 0,
    committed_index: 0,
};

/// "A fresh record: `matched` 0, the given `next_idx`, the state's `max_inflight`, .. `recent_active` true, the other numbers 0, not
/// paused."
pub fn fresh_record(next_idx: u64, max_inflight: u64) -> Record {
    Record { next_idx, recent_active: 1, max_inflight, ..UNUSED }
}

/// "at most 64 ids, strictly ascending; unused places hold zero"
fn read_set(words: &words::Ids) -> Option<Set> {
    let used = words.used();
    let formed = words.count <= words::CAPACITY as u64
        && used.windows(2).all(|pair| pair[0] < pair[1])
        && words.ids[used.len()..].iter().all(|&id| id == 0);
    formed.then(|| used.iter().copied().collect())
}

fn ids<'a>(ids: impl IntoIterator<Item = &'a u64>) -> words::Ids {
    words::Ids::of(&ids.into_iter().copied().collect::<Vec<_>>())
}

/// "a log with a count over 256 or an unused place other than Add of 0" is malformed.
pub fn read_log(words: &words::Log) -> Option<Vec<Entry>> {
    let used = words.used();
    let unused = words::Entry { id: 0, kind: words::ADD };
    let formed = words.count <= words::LOG_PLACES as u64 && words.entries[used.len()..].iter().all(|e| *e == unused);
    formed.then(|| used.iter().map(|e| if e.kind == words::ADD { Entry::Add(e.id) } else { Entry::Remove(e.id) }).collect())
}

pub fn write_log(log: &[Entry], words: &mut words::Log) {
    *words = words::Log::of(&log.iter().map(entry_words).collect::<Vec<_>>());
}

fn entry_words(entry: &Entry) -> words::Entry {
    match *entry {
        Entry::Add(id) => words::Entry { id, kind: words::ADD },
        Entry::Remove(id) => words::Entry { id, kind: words::REMOVE },
    }
}

impl ConfState {
    /// The lists that the words hold, unless one is too long. Places after the count are not looked at.
    pub fn read(words: &words::ConfState) -> Option<ConfState> {
        let too_long = words.lists().iter().any(|list| list.count > words::CAPACITY as u64);
        (!too_long).then(|| ConfState::used(words))
    }

    /// The lists that the words hold; of one that is too long its 64 places.
    pub fn used(words: &words::ConfState) -> ConfState {
        let [voters, learners, voters_outgoing, learners_next] = words.lists().map(|list| list.used().to_vec());
        ConfState { voters, learners, voters_outgoing, learners_next, auto_leave: words.auto_leave == 1 }
    }

    pub fn write(&self, words: &mut words::ConfState) {
        let lists = [&self.voters, &self.learners, &self.voters_outgoing, &self.learners_next];
        for (to, from) in words.lists_mut().into_iter().zip(lists) {
            *to = words::Ids::of(from);
        }
        words.auto_leave = u64::from(self.auto_leave);
    }
}
