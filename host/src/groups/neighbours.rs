//! Neighbours: document 02, i). "For any accepted `simple`, enter or leave from a state in order, with an incoming voter before the call,
//! each quorum of the configuration before has a box in common with each quorum after it. This is to hold at each step of any sequence,
//! restore's own steps included."
//!
//! Each call is compared first. So the answer that is then held against this sentence is the subject's as well as the paper's, and the
//! Rust's wherever it has one.

use super::examples::{add, follow, learner, remove};
use super::order::failure;
use super::random::some_step;
use super::restores::{asked, each_lists, ids_lists};
use super::states::{changes_of, each_state, lists_of, read_in_order, Visit};
use super::Size;
use crate::calls::{numbered, ENTER_JOINT, LEAVE_JOINT, RESTORE, RESTORE_STEP_BY_STEP, SIMPLE};
use crate::compare::{Compared, Comparison, Failure, Held, Input, Steps};
use crate::generate;
use crate::model::{Conf, Set};
use crate::quorum::{how_many, Definition, Pair};
use crate::random::Random;
use crate::show;
use crate::words::{
    self, Block, Change, ConfState, Ids, Reply, Request, State, Verdict, ADD_LEARNER_NODE, ADD_NODE, CAPACITY, REMOVE_NODE,
};
use std::array::from_fn;

pub fn holds(as_it_should: bool, input: impl FnOnce() -> String, what: impl FnOnce() -> String) -> Compared {
    if as_it_should {
        return Ok(());
    }
    Err(failure(Input::Other(input()), what()))
}

/// What a `Held` counts.
const HELD: &str = "steps of simple, enter and leave, and those of each with a quorum before";

// ** One step

/// Makes one call, and holds an accepted answer against the sentence. The answer of all sides.
fn step(comparison: &mut Comparison, request: &mut Request) -> Result<Box<Reply>, Box<Failure>> {
    let reply = asked(comparison, request.call, request)?;
    if reply.number == 0 {
        hold(comparison, request, &reply.state.conf)?;
    }
    Ok(reply)
}

/// The same, and an accepted answer is applied. Number and id.
fn taken(comparison: &mut Comparison, request: &mut Request) -> Result<Verdict, Box<Failure>> {
    let reply = step(comparison, request)?;
    follow(comparison, request, &reply)?;
    Ok(reply.verdict())
}

fn hold(comparison: &mut Comparison, request: &Request, after: &words::Conf) -> Compared {
    let broken = |what: String| failure(Input::Other(show::request(request)), what);
    let (Some(before), Some(after)) = (read_in_order(&request.state), Conf::read(after)) else {
        return Err(broken("the state before the step is not in order, or the configuration after it is malformed".to_string()));
    };
    let pairs = judged(&before.conf, &after).map_err(broken)?;
    let steps = &mut comparison.steps;
    let of_call = &mut steps.held[(request.call - SIMPLE) as usize];
    of_call[0] += 1;
    of_call[1] += u64::from(!before.conf.incoming.is_empty());
    steps.plainly += u64::from(pairs.is_some());
    steps.pairs += pairs.unwrap_or(0) as u64;
    Ok(())
}

/// Up to so many ids, one that is nowhere among them, quorums are also looked at plainly.
const FEW: usize = 6;

/// Of few ids, how many pairs of quorums there are; or how the sentence does not hold. With an incoming voter before the step the group of
/// all voters is a quorum, before and after.
pub fn judged(before: &Conf, after: &Conf) -> Result<Option<usize>, String> {
    let all_vote = |conf: &Conf| {
        let voters: Set = conf.incoming.union(&conf.outgoing).copied().collect();
        Definition::Paper.is_quorum(&voters, conf)
    };
    let votes = !before.incoming.is_empty();
    if all_vote(before) != votes || (votes && !all_vote(after)) {
        return Err("all voters together are no quorum, or are one without an incoming voter".to_string());
    }
    if let Some(pair) = Definition::Paper.apart(before, after) {
        return Err(have_none_in_common(&pair));
    }
    let ids = before.members().union(&after.members()).count() + 1;
    if ids > FEW {
        return Ok(None);
    }
    let pairs = Definition::Paper.apart_plainly(before, after).map_err(|pair| have_none_in_common(&pair))?;
    let expected = how_many(before, ids) * how_many(after, ids);
    if pairs != expected {
        return Err(format!("{pairs} pairs of quorums, expected {expected}"));
    }
    Ok(Some(pairs))
}

fn have_none_in_common((before, after): &Pair) -> String {
    format!("the quorums {} before and {} after have no voter in common", show::group(before), show::group(after))
}

// ** Small states

/// Every state in order over these ids, in the place of the request's: left if it is joint, else with every list of up to two changes of
/// these ids and of a new one, by `simple` and by `enter_joint`.
pub fn each_step(ids: &[u64], visit: Visit) -> Compared {
    let new = ids.iter().max().map_or(1, |id| id + 1);
    let lists = lists_of(&changes_of(&[ids, &[new]].concat()), 2);
    each_state(ids, &mut Request::new(0), &mut |request| {
        if read_in_order(&request.state).is_none() {
            return Ok(());
        }
        if request.state.conf.outgoing.count != 0 {
            request.call = LEAVE_JOINT;
            return visit(request);
        }
        for list in &lists {
            request.list.set(list);
            for call in [SIMPLE, ENTER_JOINT] {
                request.call = call;
                visit(request)?;
            }
        }
        Ok(())
    })
}

pub fn small(comparison: &mut Comparison, _: &mut Random, size: Size) -> Compared {
    let pools: [&[u64]; 3] = [&[1, 2], &[1, 2, 3], &[1, 2, 3, 4]];
    for ids in &pools[..size.pick(1, 2, 3)] {
        let before = comparison.steps;
        each_step(ids, &mut |request| {
            if request.call == ENTER_JOINT {
                request.auto_leave = 1 - request.auto_leave;
            }
            step(comparison, request).map(|_| ())
        })?;
        met(comparison, &before, how_many_steps(ids.len() as u32), &format!("every state in order over the ids {ids:?}"))?;
    }
    Ok(())
}

/// Whether as many steps were held since then as were worked by hand, and each of them plainly too.
fn met(comparison: &Comparison, before: &Steps, expected: Held, input: &str) -> Compared {
    let (met, plainly) = (held_since(comparison, before), comparison.steps.plainly - before.plainly);
    let all: u64 = expected.iter().map(|[all, _]| all).sum();
    let what = || format!("{HELD}: {met:?}, expected {expected:?}; {plainly} plainly, expected {all}");
    holds(met == expected && plainly == all, || input.to_string(), what)
}

fn held_since(comparison: &Comparison, before: &Steps) -> Held {
    from_fn(|call| from_fn(|which| comparison.steps.held[call][which] - before.held[call][which]))
}

/// How many of these calls are accepted, of `simple`, of `enter_joint` and of `leave_joint`, and how many of them from a state with an
/// incoming voter: worked by hand from the standings.
///
/// A box is none, I or L, so two of three standings are without a vote. Add gives it one, remove and learner leave it without; of two
/// changes of one box the second decides, whatever the first. A list is empty, or one change, alone or after any of three of the same box,
/// or it is about two boxes in either order, the new one perhaps among them. 17 refuses what leaves no voter, 15 an enter without one, 18
/// a `simple` that changes two votes. Of the 9 standings and kinds of a box 2 give it a vote and 2 take it, 6 are without one before, 6
/// after, and 4 both times; of the 3 kinds of the new one 1 gives it a vote. A joint state has either flag, and boxes that are O, IO or
/// OS.
fn how_many_steps(boxes: u32) -> Held {
    let n = u64::from(boxes);
    // states over so many boxes less: all, without a voter, with one
    let of = |less: u32| 3u64.pow(boxes - less);
    let without = |less: u32| 2u64.pow(boxes - less);
    let with = |less: u32| of(less) - without(less);
    // lists about one box: an add; a remove or learner, where another one votes
    let (add, other) = (4 * (n + 1), 4 * 2 * (3 * n * with(1) + with(0)));
    // lists about two boxes; about one and the new one
    let (two, one_new) = (n * (n - 1), 2 * n);

    // all but those that change two votes and those that leave none
    let of_two = (81 - 4 * 4) * of(2) - (6 * 6 - 2 * 2) * without(2);
    let of_new = (27 - 4) * of(1) - 2 * 6 * without(1);
    let simple = with(0) + add * of(0) + other + two * of_two + one_new * of_new;
    // one of the two is given a vote, the other has none both times
    let from_none = add * without(0) + two * (2 * 4 + 4 * 2) * without(2) + one_new * (4 + 2 * 2) * without(1);

    // all but those without a vote before or after
    let of_two = 81 * of(2) - (6 * 6 + 6 * 6 - 4 * 4) * without(2);
    let of_new = 27 * of(1) - (3 * 6 + 2 * 6 - 2 * 4) * without(1);
    let enter = with(0) + add * with(0) + other + two * of_two + one_new * of_new;

    let leave = 2 * (6u64.pow(boxes) - of(0));
    let without_incoming = 2 * (4u64.pow(boxes) - without(0));
    [[simple, simple - from_none], [enter, enter], [leave, leave - without_incoming]]
}

// ** Random states

/// States in order of every size.
pub fn random(comparison: &mut Comparison, random: &mut Random, size: Size) -> Compared {
    let (before, rounds) = (comparison.steps, size.pick(1, 40, 400));
    for _ in 0..rounds {
        for boxes in 0..=CAPACITY {
            changed_and_swapped(comparison, random, boxes)?;
        }
    }
    let states = rounds * (CAPACITY as u64 + 1);
    let met = held_since(comparison, &before);
    let as_it_should = met[0][0] == 2 * states && met[1] == [states; 2] && met[2][0] >= states;
    holds(as_it_should, || format!("{states} random states"), || format!("{HELD}: {met:?}"))
}

/// A random state of so many boxes is left if joint; then twice one voter is changed, a rack swapped, and it is left.
fn changed_and_swapped(comparison: &mut Comparison, random: &mut Random, boxes: usize) -> Compared {
    let mut request = Request::new(0);
    let ids = generate::ids(random, 2 * CAPACITY);
    let from = random.between(0, CAPACITY);
    request.state = generate::in_order(random, &ids[from..from + boxes]);
    request.next_idx = random.number();
    if request.state.conf.outgoing.count != 0 {
        accepted(comparison, &mut request, LEAVE_JOINT, &[])?;
    }
    for _ in 0..2 {
        let list = one_voter(random, &request.state, &ids);
        accepted(comparison, &mut request, SIMPLE, &list)?;
    }
    let list = rack_swap(random, &request.state, &ids);
    request.auto_leave = random.flag();
    accepted(comparison, &mut request, ENTER_JOINT, &list)?;
    accepted(comparison, &mut request, LEAVE_JOINT, &[])
}

/// A step that was made to be accepted: it has to be, or the sentence would be held against fewer than it seems.
fn accepted(comparison: &mut Comparison, request: &mut Request, call: u64, list: &[Change]) -> Compared {
    request.call = call;
    request.list.set(list);
    let verdict = taken(comparison, request)?;
    holds(verdict == [0, 0], || show::request(request), || format!("it was made to be accepted, and gives {verdict:?}"))
}

/// Of a state that is not joint those who can become voters: its learners, and as many new ones of these ids as there is room for.
fn comers(state: &State, ids: &[u64]) -> Vec<u64> {
    let tracked = state.tracked.used();
    let new = ids.iter().filter(|id| !tracked.contains(id)).take(CAPACITY - tracked.len());
    state.conf.learners.used().iter().chain(new).copied().collect()
}

/// One voter more or, where there are two, one less.
fn one_voter(random: &mut Random, state: &State, ids: &[u64]) -> Vec<Change> {
    let mut changes: Vec<Change> = comers(state, ids).into_iter().map(add).collect();
    let voters = state.conf.incoming.used();
    if voters.len() > 1 {
        changes.extend(voters.iter().flat_map(|&id| [remove(id), learner(id)]));
    }
    vec![random.pick(&changes)]
}

/// Half of the voters go, or all of them, removed or as learners; others come. Where nobody comes one stays.
fn rack_swap(random: &mut Random, state: &State, ids: &[u64]) -> Vec<Change> {
    let (voters, comers) = (state.conf.incoming.used(), comers(state, ids));
    let come = &comers[random.between(0, comers.len())..];
    let stay = random.pick(&[0, voters.len() / 2]).max(usize::from(come.is_empty()));
    let go = voters.iter().cycle().skip(random.below(voters.len())).take(voters.len() - stay);
    let mut list: Vec<Change> = go.map(|&id| random.pick(&[remove(id), learner(id)])).collect();
    list.extend(come.iter().map(|&id| add(id)));
    if random.one_in(2) {
        list.reverse();
    }
    list
}

// ** Restores and sequences

/// The steps of a restore, each a call and its list. Document 01: "No outgoing: each voter, learner and staged id in list order as a
/// `simple` of its own (AddNode for voters, AddLearnerNode for the others) ... Otherwise one `simple` AddNode per outgoing id, then one
/// `enter_joint` with: remove each outgoing, add each voter, add-learner each learner, then each staged."
fn steps_of(lists: &ConfState) -> Vec<(u64, Vec<Change>)> {
    let of = |kind: u64, list: &Ids| -> Vec<Change> { list.used().iter().map(|&id| (id, kind)).collect() };
    let singly = |changes: Vec<Change>| -> Vec<_> { changes.into_iter().map(|change| (SIMPLE, vec![change])).collect() };
    let [voters, learners, outgoing, staged] = lists.lists();
    let wanted = [of(ADD_NODE, voters), of(ADD_LEARNER_NODE, learners), of(ADD_LEARNER_NODE, staged)].concat();
    if outgoing.count == 0 {
        return singly(wanted);
    }
    let mut steps = singly(of(ADD_NODE, outgoing));
    steps.push((ENTER_JOINT, [of(REMOVE_NODE, outgoing), wanted].concat()));
    steps
}

/// Makes the steps of a restore singly, each held and applied, up to the first that is refused, and leaves the request with the state that
/// they reach. Asked for in one call, `restore_step_by_step` reaches it too, with the number and id of the last step made, and so does
/// `restore`, unless it is refused.
fn walked(comparison: &mut Comparison, restore: &mut Request) -> Compared {
    let mut singly = Box::new(*restore);
    singly.auto_leave = restore.conf_state.auto_leave;
    let mut verdict = [0, 0];
    for (call, list) in steps_of(&restore.conf_state) {
        singly.call = call;
        singly.list.set(&list);
        verdict = taken(comparison, &mut singly)?;
        if verdict[0] != 0 {
            break;
        }
    }
    let kept = if verdict[0] == 0 { singly.state } else { restore.state };
    for (call, state) in [(RESTORE_STEP_BY_STEP, &singly.state), (RESTORE, &kept)] {
        let reply = asked(comparison, call, restore)?;
        if reply.verdict() != verdict || reply.state != *state {
            let singly = format!("its steps made singly: {}\n{}", show::verdicts(reply.verdict(), verdict), show::state(state));
            let what = format!("{singly}\nin one call:\n{}", show::state(&reply.state));
            return Err(failure(Input::Other(show::request(restore)), what));
        }
    }
    restore.state = singly.state;
    Ok(())
}

/// Small restores to fresh, either flag. Of four lists of at most one of two ids the steps accepted are worked by hand. Nobody outgoing:
/// 14 for each voter named, the first of them nine times. Else the outgoing id is added, 27 times each, and the enter accepted where a
/// voter is named who is neither a learner nor staged, 8 times each. A first step has no quorum before it.
pub fn restores(comparison: &mut Comparison, random: &mut Random, size: Size) -> Compared {
    let before = comparison.steps;
    to_fresh(comparison, random, &ids_lists(&[1, 2], 1))?;
    let expected = [[2 * (14 + 27), 2 * (14 - 9)], [2 * 8, 2 * 8], [0, 0]];
    met(comparison, &before, expected, "restores to fresh of four lists of up to one id")?;
    let pools: &[&[u64]] = size.pick(&[], &[&[0, 1], &[1, 2]], &[&[0, 1, 2]]);
    pools.iter().try_for_each(|ids| to_fresh(comparison, random, &ids_lists(ids, 2)))
}

fn to_fresh(comparison: &mut Comparison, random: &mut Random, lists: &[Ids]) -> Compared {
    let mut request = Request::new(0);
    each_lists(lists, &mut request, &mut |request| {
        request.state = State::zero();
        request.next_idx = 9;
        request.conf_state.auto_leave = random.flag();
        walked(comparison, request)
    })
}

/// Sequences from fresh and from states in order, restores among the steps: each is made by its own steps. Every call has to be met.
pub fn sequences(comparison: &mut Comparison, random: &mut Random, size: Size) -> Compared {
    let restore = numbered(RESTORE).expect("a call of the table");
    let before = comparison.steps;
    let mut request = Request::new(0);
    for _ in 0..size.pick(15, 500, 10_000) {
        let count = random.pick(&[3, 4, 8, 16, CAPACITY]);
        let ids = generate::ids(random, count);
        let boxes = random.pick(&[0, count / 2, count]);
        request.state = generate::in_order(random, &ids[..boxes]);
        for _ in 0..random.between(1, 20) {
            if random.one_in(6) {
                generate::arguments(random, restore, &ids, &mut request);
                walked(comparison, &mut request)?;
            } else {
                some_step(random, &ids, &mut request);
                request.next_idx = random.number();
                taken(comparison, &mut request)?;
            }
        }
    }
    let met = held_since(comparison, &before);
    let each_met = met.iter().all(|[_, with_quorums]| *with_quorums > 0);
    holds(each_met, || "random sequences".to_string(), || format!("{HELD}: {met:?}"))
}
