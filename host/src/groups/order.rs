//! States in order: document 02, h). "from every joint state in order, leaving is accepted. And every state in order with an incoming
//! voter, written out and restored to fresh, gives its configuration back. So does the empty configuration."
//!
//! Each call is compared first. So the answer that is then held against these sentences is the subject's as well as the paper's, and the
//! Rust's wherever it has one.

use super::restores::both_names;
use super::states::each_state;
use super::Size;
use crate::calls::{IN_ORDER, LEAVE_JOINT, TO_CONF_STATE};
use crate::compare::{Against, Compared, Comparison, Difference, Failure, Input};
use crate::generate::{self, MakeState};
use crate::model::{self, Model};
use crate::random::Random;
use crate::show;
use crate::words::{Block, Conf, Record, Reply, Request, State};

const NEXT_IDX: u64 = 9;

pub fn small(comparison: &mut Comparison, _: &mut Random, size: Size) -> Compared {
    let pools: [&[u64]; 3] = [&[0, 1], &[1, 2], &[1, 2, 3]];
    for ids in &pools[..size.pick(2, 3, 3)] {
        let mut met = [0, 0];
        each_state(ids, &mut Request::new(0), &mut |request| {
            match sentences(comparison, request)? {
                Kind::InOrder => met[0] += 1,
                Kind::TwoRoles => met[1] += 1,
                Kind::Other => {}
            }
            Ok(())
        })?;
        let expected = how_many(ids);
        if met != expected {
            let what = format!("in order, and in order but for ids of two roles: {met:?} states, expected {expected:?}");
            return Err(failure(Input::Other(format!("every state over the ids {ids:?}")), what));
        }
    }
    Ok(())
}

/// How many states over these ids are in order, and how many but for ids of two roles, worked by hand from the standings: an id other than
/// 0 is none, I or L, in a joint state also O, IO or OS, and with two roles IOS. A joint state has either flag.
fn how_many(ids: &[u64]) -> [u64; 2] {
    let boxes = ids.iter().filter(|&&id| id != 0).count() as u32;
    let of = |standings: u64| standings.pow(boxes);
    [of(3) + 2 * (of(6) - of(3)), 2 * (of(7) - of(6))]
}

pub fn random(comparison: &mut Comparison, random: &mut Random, size: Size) -> Compared {
    made(comparison, random, size.pick(600, 9_000, 190_000), generate::in_order, Kind::InOrder)?;
    made(comparison, random, size.pick(200, 3_000, 60_000), generate::two_roles, Kind::TwoRoles)
}

/// So many states of one generator. What it makes has to be what it says, or the sentences would be held against fewer states than it seems.
fn made(comparison: &mut Comparison, random: &mut Random, states: usize, make: MakeState, kind: Kind) -> Compared {
    let mut request = Request::new(0);
    for _ in 0..states {
        let count = generate::size(random);
        let ids = generate::ids(random, count);
        request.state = make(random, &ids);
        let expected = if ids.is_empty() { Kind::InOrder } else { kind };
        let found = sentences(comparison, &mut request)?;
        if found != expected {
            let input = Input::Other(format!("a random state: {}", show::conf(&request.state.conf)));
            return Err(failure(input, format!("it was made to be {expected:?}, and is {found:?}")));
        }
    }
    Ok(())
}

#[derive(Clone, Copy, Debug, PartialEq, Eq)]
enum Kind {
    InOrder,
    /// in order but for ids that are incoming voters and staged
    TwoRoles,
    Other,
}

/// How the answers about a request's state differ from the sentences, where each of them is the right one.
pub fn difference(comparison: &mut Comparison, request: &Request) -> Option<Difference> {
    let failure = sentences(comparison, &mut Box::new(*request)).err()?;
    matches!(failure.input, Input::State(_)).then_some(failure.difference)
}

/// Holds the answers about a request's state against the sentences, and says what kind of state it is.
fn sentences(comparison: &mut Comparison, request: &mut Request) -> Result<Kind, Box<Failure>> {
    if asked(comparison, IN_ORDER, request)?.yes == 1 {
        if request.state.conf.outgoing.count != 0 {
            left(comparison, request, (0, 0))?;
        }
        restored(comparison, request)?;
        return Ok(Kind::InOrder);
    }
    let Some(id) = least_of_two_roles(&request.state) else { return Ok(Kind::Other) };
    left(comparison, request, (10, id))?;
    Ok(Kind::TwoRoles)
}

/// Of a state that is in order but for ids that are incoming voters and staged, the least of these. Example 14: "the check passes; leave
/// gives 10, id 2".
fn least_of_two_roles(state: &State) -> Option<u64> {
    let mut state = model::State::read(state)?;
    Model::PAPER.checked(&state).ok()?;
    let both: Vec<u64> = state.conf.staged.intersection(&state.conf.incoming).copied().collect();
    state.conf.staged.retain(|id| !both.contains(id));
    both.first().copied().filter(|_| Model::PAPER.in_order(&state))
}

/// The answer of all sides.
fn asked<'a>(comparison: &'a mut Comparison, call: u64, request: &mut Request) -> Result<&'a Reply, Box<Failure>> {
    request.call = call;
    comparison.call(request)?;
    Ok(comparison.expected(request).0)
}

fn left(comparison: &mut Comparison, request: &mut Request, expected: (u64, u64)) -> Compared {
    let reply = asked(comparison, LEAVE_JOINT, request)?;
    let given = (reply.number, reply.id);
    holds(request, given == expected, || format!("leaving gives number and id {given:?}, expected {expected:?}"))
}

/// Written out and restored to fresh, under both names. Without an incoming voter only the empty configuration comes back: any other is
/// refused with 17.
fn restored(comparison: &mut Comparison, request: &mut Request) -> Compared {
    let State { conf, max_inflight, .. } = request.state;
    let mut restore = Request::new(0);
    restore.conf_state = asked(comparison, TO_CONF_STATE, request)?.conf_state;
    (restore.state.max_inflight, restore.next_idx) = (max_inflight, NEXT_IDX);
    let reply = both_names(comparison, &mut restore)?;
    let number = reply.number;
    if conf.incoming.count == 0 && conf != Conf::zero() {
        return holds(request, number == 17, || format!("written out and restored it gives number {number}, expected 17"));
    }
    let same = number == 0 && reply.state == with_fresh_records(&request.state);
    let restored = show::state(&reply.state);
    holds(request, same, || format!("written out and restored it gives number {number} and\n{restored}"))
}

/// The same configuration and tracked ids. "A fresh record: `matched` 0, the given `next_idx`, the state's `max_inflight` ..,
/// `recent_active` true, the other numbers 0, not paused."
fn with_fresh_records(state: &State) -> State {
    let fresh = Record { next_idx: NEXT_IDX, max_inflight: state.max_inflight, recent_active: 1, ..Record::zero() };
    let mut restored = *state;
    restored.records[..state.tracked.used().len()].fill(fresh);
    restored
}

fn holds(request: &Request, as_it_should: bool, what: impl FnOnce() -> String) -> Compared {
    if as_it_should {
        return Ok(());
    }
    Err(failure(Input::State(Box::new(*request)), what()))
}

pub fn failure(input: Input, what: String) -> Box<Failure> {
    Box::new(Failure { input, difference: Difference { against: Against::Paper, what } })
}
