//! dimecandle.rs: what a user's program calls. Each call goes through it, and its result is compared with the reply that is right. Messages
//! are in wrapper/messages.rs, and two of them that are compared with each other in wrapper/comparisons.rs.

mod comparisons;
mod messages;

pub use comparisons::comparisons;
pub use messages::messages;

use super::Size;
use crate::calls::*;
use crate::compare::{agrees, Against, Compared, Comparison, Difference, Failure, Input};
use crate::dimecandle::{
    Answer, ConfChangeSingle, ConfChangeType, ConfState, Configuration, MapChangeType, Progress, ProgressState, Refused, Tracker,
};
use crate::generate;
use crate::model;
use crate::random::Random;
use crate::show;
use crate::words::{self, Block, Entry, Ids, Log, Record, Reply, Request};
use std::collections::BTreeSet;

/// The calls that dimecandle.rs has.
const WRAPPED: [u64; 9] =
    [CHECK, IN_ORDER, SIMPLE, ENTER_JOINT, LEAVE_JOINT, APPLY_CONF, TO_CONF_STATE, RESTORE, RESTORE_STEP_BY_STEP];

pub fn wrapper(comparison: &mut Comparison, random: &mut Random, size: Size) -> Compared {
    beyond_the_limits(comparison)?;
    for _ in 0..size.pick(1_000, 20_000, 400_000) {
        let count = generate::size(random);
        let ids = generate::ids(random, count);
        let mut request = Request::new(0);
        let make = random.pick(&[generate::in_order, generate::two_roles, generate::formed]);
        request.state = make(random, &ids);
        let call = numbered(random.pick(&WRAPPED)).expect("a call of the table");
        generate::arguments(random, call, &ids, &mut request);
        through(comparison, &request)?;
        if random.one_in(8) {
            where_the_check_fails(comparison, &tracker(&request.state))?;
        }
        if random.one_in(4) {
            let id = generate::id_asked(random, &request.state);
            can_unplug(comparison, &request.state, id)?;
        }
    }
    Ok(())
}

/// What the wrapper says of one box beside the right verdict. Of the second side its entry is asked the same, without the wrapper.
fn can_unplug(comparison: &mut Comparison, state: &words::State, id: u64) -> Compared {
    comparison.inputs += 1;
    let verdict = tracker(state).can_unplug(id).map_or_else(|refused| [refused.number, refused.id], |()| [0, 0]);
    let right = comparison.right_verdict(state, id);
    if let Some(difference) = right.difference(state, verdict) {
        let input = Input::Other(format!("through dimecandle.rs: {}", show::unplug(state, id)));
        return Err(Box::new(Failure { input, difference }));
    }
    match comparison.second_side(|second| second.verdict_difference(state, id, &right, false)) {
        None => Ok(()),
        Some(difference) => Err(Box::new(Failure { input: Input::Unplug(Box::new(*state), id), difference })),
    }
}

/// The result of one call. Of the second side its entry is asked the same, without the wrapper.
fn through(comparison: &mut Comparison, request: &Request) -> Compared {
    comparison.inputs += 1;
    if let Some(difference) = difference(comparison, request) {
        return Err(Box::new(Failure { input: Input::Wrapped(Box::new(*request)), difference }));
    }
    let of_entry = |second: &mut Comparison| {
        let with_rust = second.expected(request).1.is_some();
        second.reply_difference(request, with_rust)
    };
    match comparison.second_side(of_entry) {
        None => Ok(()),
        Some(difference) => Err(Box::new(Failure { input: Input::Call(Box::new(*request)), difference })),
    }
}

/// How the wrapper's result differs from the right reply; of a request that the wrapper's values cannot hold, not at all.
pub fn difference(comparison: &mut Comparison, request: &Request) -> Option<Difference> {
    if !holdable(request) {
        return None;
    }
    let given = through_the_wrapper(request);
    let (paper, rust) = comparison.expected(request);
    let with_rust = rust.is_some();
    let (against, expected) = match rust {
        Some(rust) if !agrees(request, &given, rust) => (Against::Rust, rust),
        _ if given != *paper => (Against::Paper, paper),
        _ => {
            comparison.with_rust += u64::from(with_rust);
            return None;
        }
    };
    Some(Difference { against, what: show::differences(&given, expected) })
}

/// Whether every block is well formed: the wrapper's sets, maps and kinds are.
fn holdable(request: &Request) -> bool {
    let list = &request.list;
    model::State::read(&request.state).is_some()
        && model::Conf::read(&request.conf).is_some()
        && model::read_log(&request.log).is_some()
        && model::ConfState::read(&request.conf_state).is_some()
        && list.ids_count == list.kinds_count
        && list.used_kinds().iter().all(|&kind| kind <= words::ADD_LEARNER_NODE)
}

/// The reply that the wrapper's result amounts to.
fn through_the_wrapper(request: &Request) -> Reply {
    let mut tracker = tracker(&request.state);
    let mut reply = Reply::zero();
    reply.giving_back(&request.state);
    let list: Vec<_> = request.list.changes().map(change).collect();
    let refused = match request.call {
        CHECK => tracker.check(),
        SIMPLE => answer(tracker.simple(&list), &mut reply),
        ENTER_JOINT => answer(tracker.enter_joint(request.auto_leave == 1, &list), &mut reply),
        LEAVE_JOINT => answer(tracker.leave_joint(), &mut reply),
        TO_CONF_STATE => tracker.to_conf_state().map(|lists| write_lists(&lists, &mut reply.conf_state)),
        APPLY_CONF => {
            let log = request.log.used().iter().map(log_entry).collect();
            tracker.apply_conf(configuration(&request.conf), log, request.next_idx)
        }
        RESTORE => tracker.restore(request.next_idx, &conf_state(&request.conf_state)),
        RESTORE_STEP_BY_STEP => tracker.restore_step_by_step(request.next_idx, &conf_state(&request.conf_state)),
        IN_ORDER => {
            reply.yes = u64::from(tracker.in_order());
            Ok(())
        }
        other => unreachable!("dimecandle.rs has no call {other}"),
    };
    if matches!(request.call, APPLY_CONF | RESTORE | RESTORE_STEP_BY_STEP) {
        write_tracker(&tracker, &mut reply.state);
    }
    if let Err(Refused { number, id }) = refused {
        (reply.number, reply.id) = (number, id);
    }
    reply
}

fn answer(answer: Result<Answer, Refused>, reply: &mut Reply) -> Result<(), Refused> {
    let Answer { conf, changes, idle } = answer?;
    write_configuration(&conf, &mut reply.state.conf);
    reply.idle = idle;
    let entries: Vec<Entry> = changes.iter().map(|(id, kind)| Entry { id: *id, kind: *kind as u64 }).collect();
    reply.log = Log::of(&entries);
    Ok(())
}

// ** Words to the wrapper's values, and back

fn set(ids: &Ids) -> BTreeSet<u64> {
    ids.used().iter().copied().collect()
}

fn configuration(conf: &words::Conf) -> Configuration {
    let [incoming, outgoing, learners, learners_next] = conf.sets().map(set);
    Configuration { incoming, outgoing, learners, learners_next, auto_leave: conf.auto_leave == 1 }
}

fn write_configuration(conf: &Configuration, words: &mut words::Conf) {
    let sets = [&conf.incoming, &conf.outgoing, &conf.learners, &conf.learners_next];
    for (to, from) in words.sets_mut().into_iter().zip(sets) {
        *to = Ids::of(&from.iter().copied().collect::<Vec<_>>());
    }
    words.auto_leave = u64::from(conf.auto_leave);
}

fn tracker(state: &words::State) -> Tracker {
    let records = state.records.iter().map(progress);
    Tracker {
        conf: configuration(&state.conf),
        progress: state.tracked.used().iter().copied().zip(records).collect(),
        max_inflight: state.max_inflight,
    }
}

fn write_tracker(tracker: &Tracker, words: &mut words::State) {
    write_configuration(&tracker.conf, &mut words.conf);
    words.tracked = Ids::of(&tracker.progress.keys().copied().collect::<Vec<_>>());
    words.records = [Record::zero(); words::CAPACITY];
    for (place, progress) in words.records.iter_mut().zip(tracker.progress.values()) {
        *place = record(progress);
    }
    words.max_inflight = tracker.max_inflight;
}

fn progress(record: &Record) -> Progress {
    Progress {
        matched: record.matched,
        next_idx: record.next_idx,
        state: [ProgressState::Probe, ProgressState::Replicate, ProgressState::Snapshot][record.state as usize],
        paused: record.paused == 1,
        pending_snapshot: record.pending_snapshot,
        pending_request_snapshot: record.pending_request_snapshot,
        recent_active: record.recent_active == 1,
        max_inflight: record.max_inflight,
        commit_group_id: record.commit_group_id,
        committed_index: record.committed_index,
    }
}

fn record(progress: &Progress) -> Record {
    Record {
        matched: progress.matched,
        next_idx: progress.next_idx,
        state: progress.state as u64,
        paused: u64::from(progress.paused),
        pending_snapshot: progress.pending_snapshot,
        pending_request_snapshot: progress.pending_request_snapshot,
        recent_active: u64::from(progress.recent_active),
        max_inflight: progress.max_inflight,
        commit_group_id: progress.commit_group_id,
        committed_index: progress.committed_index,
    }
}

fn change((node_id, kind): words::Change) -> ConfChangeSingle {
    let kinds = [ConfChangeType::AddNode, ConfChangeType::RemoveNode, ConfChangeType::AddLearnerNode];
    ConfChangeSingle { node_id, change_type: kinds[kind as usize] }
}

fn log_entry(entry: &Entry) -> (u64, MapChangeType) {
    (entry.id, if entry.kind == words::ADD { MapChangeType::Add } else { MapChangeType::Remove })
}

fn conf_state(lists: &words::ConfState) -> ConfState {
    let [voters, learners, voters_outgoing, learners_next] = lists.lists().map(|list| list.used().to_vec());
    ConfState { voters, learners, voters_outgoing, learners_next, auto_leave: lists.auto_leave == 1 }
}

fn write_lists(lists: &ConfState, words: &mut words::ConfState) {
    let from = [&lists.voters, &lists.learners, &lists.voters_outgoing, &lists.learners_next];
    for (to, from) in words.lists_mut().into_iter().zip(from) {
        *to = Ids::of(from);
    }
    words.auto_leave = u64::from(lists.auto_leave);
}

// ** What the layout has no room for

/// More ids, changes or entries than a request has places: 1 or 2, and the tracker stays as it was.
fn beyond_the_limits(comparison: &mut Comparison) -> Compared {
    let tracker = Tracker::new(3);
    let mut overfull = tracker.clone();
    // not from 1 on: the word after the 64 ids is the count, and 65 would pass for the last id
    overfull.conf.learners = (2..=66).collect();
    let mut crowded = tracker.clone();
    crowded.progress = (1..=70).map(|id| (id, Progress::default())).collect();
    let lists = |count| ConfState { voters: vec![1; count], ..ConfState::default() };
    let too_long = vec![ConfChangeSingle::add_node(1); 300];
    let log = vec![(1, MapChangeType::Add); 257];

    let mut tested = tracker.clone();
    expect(comparison, "a list of 257", 2, tracker.simple(&too_long[..257]).map(|_| ()))?;
    expect(comparison, "a list of 300", 2, tracker.enter_joint(true, &too_long).map(|_| ()))?;
    expect(comparison, "65 learners and a list of 300", 1, overfull.simple(&too_long).map(|_| ()))?;
    expect(comparison, "65 learners", 1, overfull.to_conf_state().map(|_| ()))?;
    expect(comparison, "65 learners, one to be unplugged", 1, overfull.can_unplug(2))?;
    expect(comparison, "70 tracked", 1, crowded.check())?;
    expect(comparison, "70 tracked, one to be unplugged", 1, crowded.can_unplug(1))?;
    expect(comparison, "70 tracked, in order", 0, if crowded.in_order() { Err(Refused { number: 1, id: 0 }) } else { Ok(()) })?;
    expect(comparison, "a log of 257", 1, tested.apply_conf(Configuration::default(), log, 1))?;
    expect(comparison, "a configuration with 65 learners", 1, tested.apply_conf(overfull.conf.clone(), vec![], 1))?;
    for (name, restore) in RESTORES {
        expect(comparison, &format!("{name} of 65 voters"), 2, restore(&mut tested, 1, &lists(65)))?;
        let mut kept = overfull.clone();
        expect(comparison, &format!("{name} of 65 voters to 65 learners"), 1, restore(&mut kept, 1, &lists(65)))?;
        expect(comparison, &format!("65 learners after {name}"), 0, same(&kept, &overfull))?;
    }
    expect(comparison, "the tracker after these", 0, same(&tested, &tracker))?;
    for (name, restore) in RESTORES {
        expect(comparison, &format!("{name} of 64 times one voter"), 0, restore(&mut tracker.clone(), 1, &lists(64)))?;
    }
    Ok(())
}

/// A restore of dimecandle.rs, under either name.
type Restore = fn(&mut Tracker, u64, &ConfState) -> Result<(), Refused>;

const RESTORES: [(&str, Restore); 2] = [("restore", Tracker::restore), ("restore_step_by_step", Tracker::restore_step_by_step)];

/// What dimecandle.rs says of `check`: which calls are refused where it is, and which are not.
fn where_the_check_fails(comparison: &mut Comparison, tracker: &Tracker) -> Compared {
    if tracker.check().is_ok() {
        return Ok(());
    }
    let one_voter = ConfState { voters: vec![1], ..ConfState::default() };
    let mut refused = vec![
        ("simple", tracker.simple(&[]).is_err()),
        ("enter_joint", tracker.enter_joint(true, &[]).is_err()),
        ("leave_joint", tracker.leave_joint().is_err()),
        ("can_unplug", tracker.can_unplug(1).is_err()),
        ("in_order", !tracker.in_order()),
    ];
    refused.extend(RESTORES.map(|(name, restore)| (name, restore(&mut tracker.clone(), 1, &one_voter).is_err())));
    let mut accepted = vec![
        ("apply_conf", tracker.clone().apply_conf(Configuration::default(), vec![], 1).is_ok()),
        ("to_conf_state", tracker.to_conf_state().is_ok()),
    ];
    accepted.extend(RESTORES.map(|(name, restore)| (name, restore(&mut tracker.clone(), 1, &ConfState::default()).is_ok())));
    for (name, right) in refused.into_iter().chain(accepted) {
        let told = if right { Ok(()) } else { Err(Refused { number: 1, id: 0 }) };
        expect(comparison, &format!("{name} where the check fails: {tracker:?}"), 0, told)?;
    }
    Ok(())
}

/// Refused where the two differ.
fn same(one: &Tracker, other: &Tracker) -> Result<(), Refused> {
    if one == other {
        Ok(())
    } else {
        Err(Refused { number: 1, id: 0 })
    }
}

fn expect(comparison: &mut Comparison, what: &str, number: u64, given: Result<(), Refused>) -> Compared {
    comparison.inputs += 1;
    let given = given.map_or_else(|refused| refused.number, |()| 0);
    if given == number {
        return Ok(());
    }
    let difference = Difference { against: Against::Paper, what: format!("number {given}, expected {number}") };
    Err(Box::new(Failure { input: Input::Other(format!("through dimecandle.rs: {what}")), difference }))
}
