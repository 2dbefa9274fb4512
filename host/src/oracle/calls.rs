//! How the Rust answers each call of calls.rs, and unplug.

use super::idle::{self, ListCall};
use super::Rust;
use crate::calls::*;
use crate::model::Refusal;
use crate::words::{self, Reply, Request, Verdict};
use raft::{Changer, Configuration, MapChange, ProgressTracker};

impl Rust {
    /// Fills in what the call gives. The reply already gives the state back, with number 0 and nothing else.
    pub fn answer(&mut self, request: &Request, reply: &mut Reply) {
        match request.call {
            CHECK => check(self, request, reply),
            IN_ORDER => in_order(self, request, reply),
            SIMPLE => list_call(self, ListCall::Simple, request, reply),
            ENTER_JOINT => list_call(self, ListCall::EnterJoint { auto_leave: request.auto_leave == 1 }, request, reply),
            LEAVE_JOINT => leave_joint(self, request, reply),
            APPLY_CONF => apply_conf(self, request, reply),
            TO_CONF_STATE => to_conf_state(self, request, reply),
            RESTORE => restore(self, request, reply),
            RESTORE_STEP_BY_STEP => step_by_step(self, request, reply),
            other => unreachable!("the table has no call {other}"),
        }
    }

    /// The Rust has no such question: it is asked for `simple` with the single removal.
    pub fn unplug(&mut self, state: &words::State, id: u64) -> Verdict {
        let removal = super::changes([(id, words::REMOVE_NODE)]);
        verdict(refusal(ListCall::Simple.ask(self.tracker(state), &removal).map(|_| ())))
    }

    /// The idle entries of a list that the Rust accepts, each judged with one more voter and repairs.
    pub fn idle_with_repairs(&mut self, request: &Request) -> u64 {
        let call = match request.call {
            SIMPLE => ListCall::Simple,
            _ => ListCall::EnterJoint { auto_leave: request.auto_leave == 1 },
        };
        idle::count_repaired(self, &request.state, call, request.list.changes())
    }
}

fn check(rust: &mut Rust, request: &Request, reply: &mut Reply) {
    let tracker = rust.tracker(&request.state);
    settle(refusal(Changer::new(tracker).check()), reply);
}

/// Added by the paper: worked out from the Rust's check, its sets and its tracked ids.
fn in_order(rust: &mut Rust, request: &Request, reply: &mut Reply) {
    let tracker = rust.tracker(&request.state);
    let conf = tracker.conf();
    let member = |id: &u64| conf.voters().contains(*id) || conf.learners().contains(id) || conf.learners_next().contains(id);
    let sets = [&*conf.voters().incoming, &*conf.voters().outgoing, conf.learners(), conf.learners_next()];
    let each_tracked = sets.iter().all(|set| set.iter().all(|id| tracker.get(*id).is_some()));
    let each_member = tracker.iter().all(|(id, _)| member(id));
    let none_zero = !member(&0) && tracker.get(0).is_none();
    let roles_apart = conf.learners_next().is_disjoint(&conf.voters().incoming);
    let passes = Changer::new(tracker).check().is_ok();
    reply.yes = u64::from(passes && each_tracked && each_member && none_zero && roles_apart);
}

/// The Rust has no count of idle entries: it is worked out where the whole list is accepted.
fn list_call(rust: &mut Rust, call: ListCall, request: &Request, reply: &mut Reply) {
    let list = super::changes(request.list.changes());
    answer(call.ask(rust.tracker(&request.state), &list), reply);
    if reply.number == 0 {
        reply.idle = idle::count(rust, &request.state, call, &list);
    }
}

/// "logged Remove, ascending (the Rust's order is not fixed)"
fn leave_joint(rust: &mut Rust, request: &Request, reply: &mut Reply) {
    let mut left = Changer::new(rust.tracker(&request.state)).leave_joint();
    if let Ok((_, log)) = &mut left {
        log.sort_unstable_by_key(|(id, _)| *id);
    }
    answer(left, reply);
}

fn apply_conf(rust: &mut Rust, request: &Request, reply: &mut Reply) {
    let mut tracker = rust.tracker(&request.state).clone();
    tracker.apply_conf(super::configuration(&request.conf), super::map_change(&request.log), request.next_idx);
    super::write_tracker(&tracker, &mut reply.state);
}

fn to_conf_state(rust: &mut Rust, request: &Request, reply: &mut Reply) {
    let lists = rust.tracker(&request.state).conf().to_conf_state();
    super::write_conf_state(lists, &mut reply.conf_state);
}

/// The Rust restores a clone. Where it refuses, the clone is dropped: number and id are the Rust's, and the reply gives the state back.
fn restore(rust: &mut Rust, request: &Request, reply: &mut Reply) {
    let (tracker, result) = restored(rust, request);
    if result.is_ok() {
        super::write_tracker(&tracker, &mut reply.state);
    }
    settle(result, reply);
}

/// The Rust's own `restore`, as it is: the steps before a refused one stay.
fn step_by_step(rust: &mut Rust, request: &Request, reply: &mut Reply) {
    let (tracker, result) = restored(rust, request);
    super::write_tracker(&tracker, &mut reply.state);
    settle(result, reply);
}

/// A clone of the tracker as the Rust's `restore` leaves it, and what it says.
fn restored(rust: &mut Rust, request: &Request) -> (ProgressTracker, Result<(), Refusal>) {
    let mut tracker = rust.tracker(&request.state).clone();
    let result = raft::restore(&mut tracker, request.next_idx, &super::conf_state(&request.conf_state));
    (tracker, refusal(result))
}

fn refusal(result: raft::Result<()>) -> Result<(), Refusal> {
    result.map_err(|error| {
        let (number, id) = super::number_and_id(&error);
        Refusal { number, id }
    })
}

fn answer(answer: raft::Result<(Configuration, MapChange)>, reply: &mut Reply) {
    match answer {
        Err(error) => settle(refusal(Err(error)), reply),
        Ok((conf, log)) => {
            super::write_configuration(&conf, &mut reply.state.conf);
            reply.log = words::Log::of(&super::log_entries(&log));
        }
    }
}
