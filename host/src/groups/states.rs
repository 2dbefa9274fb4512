//! Every small state: each id in any of the four sets, tracked or not, and both flags.

use super::Size;
use crate::calls::{Call, Takes, APPLY_CONF, CALLS};
use crate::compare::{Compared, Comparison};
use crate::model::{Model, State};
use crate::random::Random;
use crate::words::{self, Block, Change, Conf, Ids, Log, Record, Request};

/// A step of a walk: the request has its state.
pub type Visit<'a> = &'a mut dyn FnMut(&mut Request) -> Compared;

/// Per id one bit for each set, in the order of the layout, and one for tracked.
const TRACKED: u32 = 16;
const CODES: u32 = 32;

/// Every state over these ids, in turn, in the place of the request's.
pub fn each_state(ids: &[u64], request: &mut Request, visit: Visit) -> Compared {
    for flag in 0..2 {
        for codes in 0..CODES.pow(ids.len() as u32) {
            let code_of = |place: usize| codes / CODES.pow(place as u32) % CODES;
            let with = |bit: u32| -> Vec<u64> {
                ids.iter().enumerate().filter(|(place, _)| code_of(*place) & bit != 0).map(|(_, id)| *id).collect()
            };
            for (set, to) in request.state.conf.sets_mut().into_iter().enumerate() {
                *to = Ids::of(&with(1 << set));
            }
            request.state.conf.auto_leave = flag;
            track(&mut request.state, &with(TRACKED));
            visit(request)?;
        }
    }
    Ok(())
}

/// These ids tracked, each with a record that is like no other.
fn track(state: &mut words::State, ids: &[u64]) {
    state.tracked = Ids::of(ids);
    state.records = [Record::zero(); words::CAPACITY];
    for (place, &id) in state.records.iter_mut().zip(ids) {
        *place = record_of(id);
    }
    state.max_inflight = 5;
}

fn record_of(id: u64) -> Record {
    Record {
        matched: 10 * id + 1,
        next_idx: 10 * id + 2,
        state: id % 3,
        paused: id % 2,
        pending_snapshot: 10 * id + 3,
        pending_request_snapshot: 10 * id + 4,
        recent_active: (id + 1) % 2,
        max_inflight: 10 * id + 5,
        commit_group_id: 10 * id + 6,
        committed_index: 10 * id + 7,
    }
}

/// Every list of at most `longest` items of these.
pub fn lists_of<T: Copy>(items: &[T], longest: usize) -> Vec<Vec<T>> {
    let (mut lists, mut from) = (vec![vec![]], 0);
    for _ in 0..longest {
        let end = lists.len();
        for list in from..end {
            for &item in items {
                let mut longer = lists[list].clone();
                longer.push(item);
                lists.push(longer);
            }
        }
        from = end;
    }
    lists
}

/// Every change of one of these ids.
pub fn changes_of(ids: &[u64]) -> Vec<Change> {
    ids.iter().flat_map(|&id| (0..3).map(move |kind| (id, kind))).collect()
}

/// Every call that takes a list, with each of these. The flag is turned at each call and, since the calls come in turn, once more from list
/// to list, so that each call meets both; in a long run it meets both with each list. A quick one, which the fixed vectors are taken from,
/// does without the turn between the lists.
fn list_calls(comparison: &mut Comparison, request: &mut Request, lists: &[Vec<Change>], size: Size) -> Compared {
    for list in lists {
        request.list.set(list);
        if size != Size::Quick {
            request.auto_leave = 1 - request.auto_leave;
        }
        for call in CALLS.iter().filter(|call| takes_list(call)) {
            request.call = call.number;
            for _ in 0..if call.takes == Takes::ListAndFlag { size.pick(1, 1, 2) } else { 1 } {
                request.auto_leave = 1 - request.auto_leave;
                comparison.call(request)?;
            }
        }
    }
    Ok(())
}

/// Each of these lists with one of the calls that take a list, in turn; which of them begins changes from state to state.
fn one_call_each(comparison: &mut Comparison, request: &mut Request, lists: &[Vec<Change>]) -> Compared {
    let calls = CALLS.iter().filter(|call| takes_list(call)).cycle();
    for (list, call) in lists.iter().zip(calls.skip(comparison.inputs as usize % 2)) {
        request.list.set(list);
        request.call = call.number;
        request.auto_leave = 1 - request.auto_leave;
        comparison.call(request)?;
    }
    Ok(())
}

fn takes_list(call: &Call) -> bool {
    matches!(call.takes, Takes::List | Takes::ListAndFlag)
}

pub fn passes(request: &Request) -> bool {
    State::read(&request.state).is_some_and(|state| Model::PAPER.checked(&state).is_ok())
}

/// The state that the words hold, if it is in order.
pub fn read_in_order(words: &words::State) -> Option<State> {
    State::read(words).filter(|state| Model::PAPER.in_order(state))
}

pub fn two_ids(comparison: &mut Comparison, _: &mut Random, size: Size) -> Compared {
    let changes = changes_of(&[0, 1, 2, 3]);
    let (lists, short) = (lists_of(&changes, 2), lists_of(&changes, 1));
    each_state(&[1, 2], &mut Request::new(0), &mut |request| {
        comparison.plain_calls(request)?;
        let lists = if size == Size::Quick && !passes(request) { &short } else { &lists };
        list_calls(comparison, request, lists, size)
    })
}

/// Where the check fails a list is read and not looked at: there each change goes with one of the calls, but for a long run.
pub fn three_ids(comparison: &mut Comparison, _: &mut Random, size: Size) -> Compared {
    if size == Size::Quick {
        return Ok(());
    }
    let mut lists = lists_of(&changes_of(&[0, 1, 2, 3, 4]), 1);
    lists.remove(0);
    each_state(&[1, 2, 3], &mut Request::new(0), &mut |request| {
        comparison.plain_calls(request)?;
        if size == Size::Long || passes(request) {
            list_calls(comparison, request, &lists, size)
        } else {
            one_call_each(comparison, request, &lists)
        }
    })
}

/// Most states fail the check, and then a list is not looked at. Those that pass it get longer ones.
pub fn passing(comparison: &mut Comparison, _: &mut Random, size: Size) -> Compared {
    let longest = size.pick(2, 3, 3);
    let lists = lists_of(&changes_of(&[1, 2, 3, 4]), longest);
    each_state(&[1, 2, 3], &mut Request::new(0), &mut |request| {
        if request.state.conf.outgoing.count != 0 || !passes(request) {
            return Ok(());
        }
        list_calls(comparison, request, &lists, size)
    })
}

// ** apply_conf

fn logs_of(ids: &[u64], longest: usize) -> Vec<Log> {
    let entries: Vec<_> = ids.iter().flat_map(|&id| (0..2).map(move |kind| words::Entry { id, kind })).collect();
    lists_of(&entries, longest).iter().map(|log| Log::of(log)).collect()
}

/// Configurations that are not the state's own: `apply_conf` makes no check.
fn some_conf(turn: usize) -> Conf {
    let mut conf = Conf::zero();
    let members: [[&[u64]; 4]; 3] = [[&[], &[], &[], &[]], [&[1, 3], &[2], &[5], &[2]], [&[0, 7], &[7], &[7], &[u64::MAX]]];
    for (to, from) in conf.sets_mut().into_iter().zip(members[turn % 3]) {
        *to = Ids::of(from);
    }
    conf.auto_leave = (turn % 2) as u64;
    conf
}

pub fn apply_logs(comparison: &mut Comparison, _: &mut Random, size: Size) -> Compared {
    let logs = logs_of(&[1, 2, 3], size.pick(1, 2, 2));
    let mut request = Request::new(APPLY_CONF);
    request.next_idx = 77;
    let mut turn = 0;
    each_state(&[1, 2], &mut request, &mut |request| {
        for log in &logs {
            turn += 1;
            request.conf = some_conf(turn);
            request.log = *log;
            comparison.call(request)?;
        }
        Ok(())
    })
}

pub fn apply_long_logs(comparison: &mut Comparison, _: &mut Random, size: Size) -> Compared {
    let logs = logs_of(&[1, 2, 3], size.pick(2, 4, 5));
    let mut request = Request::new(APPLY_CONF);
    request.next_idx = 77;
    for tracked in [&[][..], &[1], &[2], &[3], &[1, 2], &[1, 3], &[2, 3], &[1, 2, 3]] {
        track(&mut request.state, tracked);
        for log in &logs {
            request.log = *log;
            comparison.call(&request)?;
        }
    }
    Ok(())
}

pub fn apply_confs(comparison: &mut Comparison, _: &mut Random, _: Size) -> Compared {
    let mut request = Request::new(APPLY_CONF);
    request.next_idx = 77;
    request.log = Log::of(&[words::Entry { id: 4, kind: words::ADD }]);
    let mut conf_of = Request::new(0);
    each_state(&[1, 2], &mut conf_of, &mut |with_conf| {
        request.conf = with_conf.state.conf;
        track(&mut request.state, with_conf.state.tracked.used());
        comparison.call(&request)
    })
}
