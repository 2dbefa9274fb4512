//! The calls: each with its number, its arguments and how the paper answers it. How the Rust does is in oracle/calls.rs.
//!
//! To add a call: a row in `CALLS` with the paper's function, and the Rust's beside the others there. Both get the request and a reply that
//! already gives the state back with number 0, an empty log, empty lists and no idle entry; they fill in what the call gives. The
//! comparison, the groups that try every small state, the random ones and the vectors go through the rows of this table: each finds by
//! `takes` what to vary.

use crate::model::{read_log, write_log};
use crate::model::{Accepted, Answer, Change, Conf, ConfState, Kind, Model, Refusal, State};
use crate::oracle;
use crate::words::{self, Reply, Request, Verdict, LONGEST_LIST};

/// The arguments that a call reads beside the state.
#[derive(Clone, Copy, PartialEq, Eq)]
pub enum Takes {
    Nothing,
    List,
    ListAndFlag,
    ConfLogAndNext,
    ConfStateAndNext,
}

pub struct Call {
    pub number: u64,
    pub name: &'static str,
    pub takes: Takes,
    pub paper: fn(&Model, &Request, &mut Reply),
}

pub const CHECK: u64 = 0;
pub const IN_ORDER: u64 = 1;
pub const SIMPLE: u64 = 2;
pub const ENTER_JOINT: u64 = 3;
pub const LEAVE_JOINT: u64 = 4;
pub const APPLY_CONF: u64 = 5;
pub const TO_CONF_STATE: u64 = 6;
pub const RESTORE: u64 = 7;
pub const RESTORE_STEP_BY_STEP: u64 = 8;

#[rustfmt::skip]
pub const CALLS: [Call; 9] = [
    Call { number: CHECK, name: "check", takes: Takes::Nothing, paper: paper_check },
    Call { number: IN_ORDER, name: "in order", takes: Takes::Nothing, paper: paper_in_order },
    Call { number: SIMPLE, name: "simple", takes: Takes::List, paper: paper_simple },
    Call { number: ENTER_JOINT, name: "enter_joint", takes: Takes::ListAndFlag, paper: paper_enter_joint },
    Call { number: LEAVE_JOINT, name: "leave_joint", takes: Takes::Nothing, paper: paper_leave_joint },
    Call { number: APPLY_CONF, name: "apply_conf", takes: Takes::ConfLogAndNext, paper: paper_apply_conf },
    Call { number: TO_CONF_STATE, name: "to_conf_state", takes: Takes::Nothing, paper: paper_to_conf_state },
    Call { number: RESTORE, name: "restore", takes: Takes::ConfStateAndNext, paper: paper_restore },
    Call { number: RESTORE_STEP_BY_STEP, name: "restore_step_by_step", takes: Takes::ConfStateAndNext, paper: paper_step_by_step },
];

pub fn numbered(number: u64) -> Option<&'static Call> {
    CALLS.iter().find(|call| call.number == number)
}

/// The largest `max_inflight` that the Rust is asked about: it allocates a window of that size.
pub const LARGEST_WINDOW: u64 = 4_096;

/// Whether the Rust has an answer to compare with: "inputs not refused with 1, 2, 3, 16, 19 or 20, with `max_inflight` at most 4,096".
/// The number is the paper's. Without its text it has none.
pub fn in_domain(state: &words::State, number: u64) -> bool {
    oracle::AT_HAND && !matches!(number, 1 | 2 | 3 | 16) && state.max_inflight <= LARGEST_WINDOW
}

/// The same of a call. `in_order` refuses nothing, so there the state itself is looked at.
pub fn call_in_domain(request: &Request, paper: &Reply) -> bool {
    let formed = request.call != IN_ORDER || State::read(&request.state).is_some();
    formed && in_domain(&request.state, paper.number)
}

/// Whether two refusals may stand for each other: "The Rust walks hash sets, so with several faults it may name another. Its answer then
/// only has to name a fault of the first failing group."
pub fn same_group(state: &words::State, leaving: bool, one: Verdict, other: Verdict) -> bool {
    let Some(state) = State::read(state) else { return false };
    let group = Model::PAPER.first_group(&state, leaving);
    let names = |[number, id]: Verdict| group.contains(&Refusal { number, id });
    names(one) && names(other)
}

// ** check, in order

fn paper_check(model: &Model, request: &Request, reply: &mut Reply) {
    settle(formed(request).and_then(|state| model.checked(&state)), reply);
}

fn paper_in_order(model: &Model, request: &Request, reply: &mut Reply) {
    reply.yes = u64::from(formed(request).is_ok_and(|state| model.in_order(&state)));
}

// ** simple, enter_joint, leave_joint

fn paper_simple(model: &Model, request: &Request, reply: &mut Reply) {
    answer(read(request).and_then(|(state, list)| model.simple(&state, &list)), reply);
}

fn paper_enter_joint(model: &Model, request: &Request, reply: &mut Reply) {
    let flag = request.auto_leave == 1;
    answer(read(request).and_then(|(state, list)| model.enter_joint(&state, flag, &list)), reply);
}

fn paper_leave_joint(model: &Model, request: &Request, reply: &mut Reply) {
    answer(formed(request).and_then(|state| model.leave_joint(&state)), reply);
}

// ** unplug, an entry of its own

pub fn paper_unplug(model: &Model, state: &words::State, id: u64) -> Verdict {
    verdict(State::read(state).ok_or(MALFORMED).and_then(|state| model.can_unplug(&state, id)))
}

/// A request of `simple` with the single removal.
pub fn removal(state: &words::State, id: u64) -> Box<Request> {
    let mut request = Request::new(SIMPLE);
    request.state = *state;
    request.list.set(&[(id, words::REMOVE_NODE)]);
    request
}

pub fn verdict(result: Result<(), Refusal>) -> Verdict {
    result.map_or_else(|Refusal { number, id }| [number, id], |()| [0, 0])
}

// ** apply_conf, to_conf_state

fn paper_apply_conf(model: &Model, request: &Request, reply: &mut Reply) {
    let parts = (State::read(&request.state), Conf::read(&request.conf), read_log(&request.log));
    let (Some(mut state), Some(conf), Some(log)) = parts else {
        return settle(Err(MALFORMED), reply);
    };
    let result = model.apply_conf(&mut state, conf, &log, request.next_idx);
    state.write(&mut reply.state);
    settle(result, reply);
}

fn paper_to_conf_state(model: &Model, request: &Request, reply: &mut Reply) {
    match formed(request) {
        Ok(state) => model.to_conf_state(&state.conf).write(&mut reply.conf_state),
        malformed => settle(malformed.map(|_| ()), reply),
    }
}

// ** restore, whole and step by step

/// A restore of the model, under either name.
type Restore = fn(&Model, &mut State, u64, &ConfState) -> Result<(), Refusal>;

fn paper_restore(model: &Model, request: &Request, reply: &mut Reply) {
    paper_restored(model, Model::restore, request, reply);
}

fn paper_step_by_step(model: &Model, request: &Request, reply: &mut Reply) {
    paper_restored(model, Model::restore_step_by_step, request, reply);
}

/// "1, 2 first."
fn paper_restored(model: &Model, restore: Restore, request: &Request, reply: &mut Reply) {
    let lists = ConfState::read(&request.conf_state).ok_or(UNREADABLE);
    match formed(request).and_then(|state| Ok((state, lists?))) {
        Err(refusal) => settle(Err(refusal), reply),
        Ok((mut state, lists)) => {
            let result = restore(model, &mut state, request.next_idx, &lists);
            state.write(&mut reply.state);
            settle(result, reply);
        }
    }
}

// ** 1, 2, 3, and how an answer becomes a reply

const MALFORMED: Refusal = Refusal { number: 1, id: 0 };
const UNREADABLE: Refusal = Refusal { number: 2, id: 0 };
const UNKNOWN_KIND: Refusal = Refusal { number: 3, id: 0 };

fn formed(request: &Request) -> Result<State, Refusal> {
    State::read(&request.state).ok_or(MALFORMED)
}

fn read(request: &Request) -> Result<(State, Vec<Change>), Refusal> {
    Ok((formed(request)?, readable(&request.list)?))
}

/// 2, then 3. Places after the counts are not looked at.
fn readable(list: &words::List) -> Result<Vec<Change>, Refusal> {
    if list.ids_count != list.kinds_count || list.ids_count > LONGEST_LIST as u64 {
        return Err(UNREADABLE);
    }
    if list.used_kinds().iter().any(|&kind| kind > words::ADD_LEARNER_NODE) {
        return Err(UNKNOWN_KIND);
    }
    Ok(list.changes().map(|(id, kind)| Change { id, kind: Kind::of(kind) }).collect())
}

pub fn settle(result: Result<(), Refusal>, reply: &mut Reply) {
    if let Err(refusal) = result {
        (reply.number, reply.id) = (refusal.number, refusal.id);
    }
}

fn answer(answer: Answer, reply: &mut Reply) {
    match answer {
        Err(refusal) => settle(Err(refusal), reply),
        Ok(Accepted { conf, log, idle }) => {
            conf.write(&mut reply.state.conf);
            write_log(&log, &mut reply.log);
            reply.idle = idle as u64;
        }
    }
}
