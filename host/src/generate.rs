//! Random states and arguments.

use crate::calls::{Call, Takes, LARGEST_WINDOW};
use crate::random::Random;
use crate::words::{
    Block, Change, Conf, ConfState, Entry, Ids, List, Log, Record, Request, State, ADD_LEARNER_NODE, ADD_NODE, CAPACITY,
    LIST_PLACES, LOG_PLACES, REMOVE_NODE,
};

// ** Ids

/// So many ids, ascending, none 0: 1, 2, 3 .., or numbers of every size with the largest among them.
pub fn ids(random: &mut Random, count: usize) -> Vec<u64> {
    if random.one_in(2) {
        return (1..=count as u64).collect();
    }
    let mut ids: Vec<u64> = if random.one_in(4) { vec![u64::MAX] } else { vec![] };
    while ids.len() < count {
        let id = random.next() >> random.below(60);
        if id != 0 && !ids.contains(&id) {
            ids.push(id);
        }
    }
    ids.truncate(count);
    ids.sort_unstable();
    ids
}

/// How many ids a state is about: mostly few, sometimes all that fit.
pub fn size(random: &mut Random) -> usize {
    match random.below(8) {
        0 => random.between(7, 40),
        1 => random.between(60, CAPACITY),
        _ => random.between(0, 6),
    }
}

/// The ids that fall to each of a state's parts.
#[derive(Default)]
struct Parts {
    sets: [Vec<u64>; 4],
    tracked: Vec<u64>,
}

const INCOMING: usize = 0;
const OUTGOING: usize = 1;
const LEARNERS: usize = 2;
const STAGED: usize = 3;

impl Parts {
    /// Each part is ascending, since ids come ascending.
    fn put(&mut self, id: u64, sets: &[usize], tracked: bool) {
        for &set in sets {
            self.sets[set].push(id);
        }
        if tracked {
            self.tracked.push(id);
        }
    }

    fn conf(&self, auto_leave: u64) -> Conf {
        let mut conf = Conf::zero();
        for (to, from) in conf.sets_mut().into_iter().zip(&self.sets) {
            *to = Ids::of(from);
        }
        conf.auto_leave = auto_leave;
        conf
    }

    fn state(&self, auto_leave: u64, random: &mut Random) -> State {
        let mut state = State::zero();
        state.conf = self.conf(auto_leave);
        state.tracked = Ids::of(&self.tracked);
        for place in state.records.iter_mut().take(self.tracked.len()) {
            *place = record(random);
        }
        state.max_inflight = window(random);
        state
    }
}

/// Any record.
pub fn record(random: &mut Random) -> Record {
    Record {
        matched: random.number(),
        next_idx: random.number(),
        state: random.next() % 3,
        paused: random.flag(),
        pending_snapshot: random.number(),
        pending_request_snapshot: random.number(),
        recent_active: random.flag(),
        max_inflight: random.number(),
        commit_group_id: random.number(),
        committed_index: random.number(),
    }
}

/// A state's `max_inflight`: seldom one that the Rust is not asked about.
fn window(random: &mut Random) -> u64 {
    if random.one_in(50) {
        return random.pick(&[LARGEST_WINDOW, LARGEST_WINDOW + 1, u64::MAX]);
    }
    random.pick(&[0, 1, 5, 256])
}

// ** States

/// Makes a state over these ids.
pub type MakeState = fn(&mut Random, &[u64]) -> State;

/// A state in order over these ids, if none of them is 0: joint half the time.
pub fn in_order(random: &mut Random, ids: &[u64]) -> State {
    let joint = random.one_in(2);
    placed(random, ids, joint, &[])
}

/// A state over these ids that would be in order but for one id or a few that are incoming, outgoing and staged (example 14); over no ids,
/// the empty one.
pub fn two_roles(random: &mut Random, ids: &[u64]) -> State {
    let count = if ids.is_empty() { 0 } else { random.between(1, 3) };
    let both: Vec<u64> = (0..count).map(|_| random.pick(ids)).collect();
    placed(random, ids, true, &both)
}

/// Each id tracked, and in the sets of one of the paper's standings; those of `both` are incoming, outgoing and staged.
fn placed(random: &mut Random, ids: &[u64], joint: bool, both: &[u64]) -> State {
    let mut parts = Parts::default();
    let voters = random.between(1, 4);
    for &id in ids {
        let sets: &[usize] = match (joint, random.below(voters + 1)) {
            _ if both.contains(&id) => &[INCOMING, OUTGOING, STAGED],
            (false, 0) => &[LEARNERS],
            (false, _) => &[INCOMING],
            (true, 0) => random.pick(&[&[LEARNERS][..], &[OUTGOING, STAGED], &[OUTGOING]]),
            (true, 1) => random.pick(&[&[INCOMING][..], &[OUTGOING]]),
            (true, _) => &[INCOMING, OUTGOING],
        };
        parts.put(id, sets, true);
    }
    let flag = if parts.sets[OUTGOING].is_empty() { 0 } else { random.flag() };
    parts.state(flag, random)
}

/// A state over these ids that is not joint and has one incoming voter, the others being learners: in order, if none of them is 0; over no
/// ids, the empty one.
pub fn one_voter(random: &mut Random, ids: &[u64]) -> State {
    let voter = random.below(ids.len().max(1));
    votes_alone(random, voter, ids)
}

/// The same over 0 and these ids, with 0 as the voter.
pub fn zero_votes(random: &mut Random, ids: &[u64]) -> State {
    let ids: Vec<u64> = [0].iter().chain(ids).take(CAPACITY).copied().collect();
    votes_alone(random, 0, &ids)
}

fn votes_alone(random: &mut Random, voter: usize, ids: &[u64]) -> State {
    let mut parts = Parts::default();
    for (place, &id) in ids.iter().enumerate() {
        parts.put(id, &[if place == voter { INCOMING } else { LEARNERS }], true);
    }
    parts.state(0, random)
}

/// A well-formed state over these ids, each in any of the sets; mostly with faults of the check, idle boxes or an id 0.
pub fn formed(random: &mut Random, ids: &[u64]) -> State {
    let parts = scattered(random, ids);
    let flag = random.flag();
    parts.state(flag, random)
}

/// A well-formed configuration over these ids.
pub fn conf(random: &mut Random, ids: &[u64]) -> Conf {
    let parts = scattered(random, ids);
    parts.conf(random.flag())
}

fn scattered(random: &mut Random, ids: &[u64]) -> Parts {
    let mut parts = Parts::default();
    let zero = if random.one_in(6) { Some(0) } else { None };
    let (rare, untracked, outgoing) = (random.between(2, 12), random.between(2, 100), random.one_in(2));
    for id in zero.into_iter().chain(ids.iter().copied()).take(CAPACITY) {
        let mut sets = vec![];
        for set in [INCOMING, LEARNERS, STAGED] {
            if random.one_in(rare) || (set == INCOMING && random.one_in(2)) {
                sets.push(set);
            }
        }
        if outgoing && random.one_in(2) {
            sets.push(OUTGOING);
        }
        let tracked = !random.one_in(untracked);
        parts.put(id, &sets, tracked);
    }
    parts
}

// ** Arguments

/// Fills in what a call takes.
pub fn arguments(random: &mut Random, call: &Call, ids: &[u64], request: &mut Request) {
    request.call = call.number;
    match call.takes {
        Takes::Nothing => {}
        Takes::List | Takes::ListAndFlag => {
            let length = list_length(random);
            request.auto_leave = random.flag();
            request.list = List::of(&changes(random, ids, length));
        }
        Takes::ConfLogAndNext => {
            request.next_idx = random.number();
            request.conf = conf(random, ids);
            let length = list_length(random);
            request.log = log(random, ids, length);
        }
        Takes::ConfStateAndNext => {
            request.next_idx = random.number();
            request.conf_state = if random.one_in(2) { conf_state(random, ids) } else { written(random, ids) };
        }
    }
}

fn list_length(random: &mut Random) -> usize {
    match random.below(12) {
        0 => random.between(5, 40),
        1 => random.between(200, LOG_PLACES),
        _ => random.between(0, 4),
    }
}

/// One of the ids, else 0 or a new one.
fn some_id(random: &mut Random, ids: &[u64]) -> u64 {
    match random.below(10) {
        0 => 0,
        1 => random.number(),
        2 => random.next() % 80,
        _ if ids.is_empty() => 1,
        _ => random.pick(ids),
    }
}

/// An id to ask a state about: of one of its sets or tracked, else 0, the largest or a new one.
pub fn id_asked(random: &mut Random, state: &State) -> u64 {
    let [incoming, outgoing, learners, staged] = state.conf.sets();
    let known = random.pick(&[incoming, outgoing, learners, staged, &state.tracked]).used();
    match random.below(8) {
        0 => 0,
        1 => u64::MAX,
        2 => random.number(),
        _ if known.is_empty() => random.next() % 80,
        _ => random.pick(known),
    }
}

/// So many changes: of every kind; or of learners with one voter among them, which `simple` accepts; or each after its opposite.
pub fn changes(random: &mut Random, ids: &[u64], count: usize) -> Vec<Change> {
    let style = random.below(4);
    let mut list: Vec<Change> = vec![];
    while list.len() < count {
        let id = some_id(random, ids);
        let kind = match style {
            0 => random.pick(&[ADD_NODE, REMOVE_NODE, ADD_LEARNER_NODE]),
            1 if random.one_in(count) => random.pick(&[ADD_NODE, REMOVE_NODE]),
            1 => ADD_LEARNER_NODE,
            2 => random.pick(&[ADD_NODE, ADD_NODE, ADD_NODE, REMOVE_NODE]),
            _ => {
                list.push((id, random.pick(&[ADD_NODE, ADD_LEARNER_NODE, REMOVE_NODE])));
                random.pick(&[REMOVE_NODE, ADD_NODE])
            }
        };
        list.push((id, kind));
    }
    list.truncate(count);
    list
}

pub fn log(random: &mut Random, ids: &[u64], count: usize) -> Log {
    let adds = random.between(1, 4);
    let entries: Vec<Entry> =
        (0..count).map(|_| Entry { id: some_id(random, ids), kind: u64::from(random.one_in(adds + 1)) }).collect();
    Log::of(&entries)
}

/// Lists in any order, with repeats and zeros.
pub fn conf_state(random: &mut Random, ids: &[u64]) -> ConfState {
    let mut lists = ConfState::zero();
    for list in lists.lists_mut() {
        let count = if random.one_in(8) { random.between(40, CAPACITY) } else { random.below(5) };
        *list = Ids::of(&(0..count).map(|_| some_id(random, ids)).collect::<Vec<_>>());
    }
    lists.auto_leave = random.flag();
    lists
}

/// Lists that a configuration is written out as, each shuffled, of a state in order or of one with ids of two roles: mostly accepted by
/// `restore`. Of more than 64 ids a list can be too long.
fn written(random: &mut Random, ids: &[u64]) -> ConfState {
    let make = if random.one_in(8) { two_roles } else { in_order };
    let conf = make(random, ids).conf;
    let mut lists = ConfState::zero();
    let [incoming, outgoing, learners, staged] = conf.sets().map(|set| *set);
    for (to, mut from) in lists.lists_mut().into_iter().zip([incoming, learners, outgoing, staged]) {
        for place in 1..from.used().len() {
            from.ids.swap(place, random.below(place + 1));
        }
        *to = from;
    }
    lists.auto_leave = random.flag();
    lists
}

// ** Damage

/// Makes some part of a request malformed, or a list unreadable: each leads to 1, 2 or 3 for the calls that read that part. A flag, a
/// state or a kind stays one that its field can hold.
pub fn damage(random: &mut Random, request: &mut Request) {
    match random.below(10) {
        0..=3 => damage_set(random, request),
        4 => damage_records(random, &mut request.state),
        5 => damage_log(random, &mut request.log),
        6 => {
            let list = random.below(4);
            request.conf_state.lists_mut()[list].count = over(random, CAPACITY);
        }
        _ => damage_list(random, &mut request.list),
    }
}

/// A count that is too large, by one or by far.
fn over(random: &mut Random, most: usize) -> u64 {
    let most = most as u64;
    random.pick(&[most + 1, most + 2, u64::MAX, 1 << 32])
}

fn damage_set(random: &mut Random, request: &mut Request) {
    let which = random.below(4);
    let set = match random.below(3) {
        0 => &mut request.state.tracked,
        1 => request.state.conf.sets_mut().into_iter().nth(which).expect("one of four"),
        _ => request.conf.sets_mut().into_iter().nth(which).expect("one of four"),
    };
    damage_ids(random, set);
}

/// Makes a state malformed, mostly.
pub fn damage_state(random: &mut Random, state: &mut State) {
    let which = random.below(4);
    match random.below(6) {
        0 => damage_records(random, state),
        1 => damage_ids(random, &mut state.tracked),
        _ => damage_ids(random, state.conf.sets_mut()[which]),
    }
}

fn damage_ids(random: &mut Random, set: &mut Ids) {
    let count = set.used().len();
    match random.below(4) {
        0 => set.count = over(random, CAPACITY),
        1 if count < CAPACITY => {
            let place = random.between(count, CAPACITY - 1);
            set.ids[place] = random.pick(&[1, u64::MAX]);
        }
        // one place fewer: its id is then in an unused place, unless it is 0
        2 if count > 0 => set.count -= 1,
        // not strictly ascending
        _ if count > 1 => {
            let place = random.between(1, count - 1);
            let equal = random.one_in(2);
            set.ids.swap(place - 1, place);
            if equal {
                set.ids[place] = set.ids[place - 1];
            }
        }
        // one place more: a 0 after other ids, or before an unused record
        _ => set.count += 1,
    }
}

/// One word of an unused record, or of a used one, which is no damage.
fn damage_records(random: &mut Random, state: &mut State) {
    let unused = state.tracked.used().len().min(CAPACITY - 1);
    let place = if random.one_in(8) { random.below(CAPACITY) } else { random.between(unused, CAPACITY - 1) };
    let word = random.below(10);
    state.records[place].words_mut()[word] = 1;
}

fn damage_log(random: &mut Random, log: &mut Log) {
    let count = log.used().len();
    if count == LOG_PLACES || random.one_in(2) {
        log.count = over(random, LOG_PLACES);
    } else {
        let place = random.between(count, LOG_PLACES - 1);
        log.entries[place] = random.pick(&[Entry { id: 1, kind: 0 }, Entry { id: 0, kind: 1 }]);
    }
}

fn damage_list(random: &mut Random, list: &mut List) {
    match random.below(4) {
        0 => list.ids_count = random.between(0, LIST_PLACES) as u64,
        1 => list.kinds_count = random.between(0, LIST_PLACES) as u64,
        2 => {
            let count = random.between(257, LIST_PLACES) as u64;
            (list.ids_count, list.kinds_count) = (count, count);
        }
        _ => {
            let place = random.below(list.used_kinds().len().max(1));
            list.kinds[place] = random.pick(&[3, 4, 255]);
        }
    }
}
