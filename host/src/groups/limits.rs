//! Around each limit: lists of 256, 64 tracked ids, the least and the largest id.

use super::Size;
use crate::calls::{APPLY_CONF, CALLS, ENTER_JOINT, RESTORE, RESTORE_STEP_BY_STEP, SIMPLE};
use crate::compare::{Compared, Comparison};
use crate::generate;
use crate::random::Random;
use crate::words::{Block, Change, Ids, List, Request, ADD_LEARNER_NODE, ADD_NODE, CAPACITY, LIST_PLACES, REMOVE_NODE};

/// "A list of 256 is read, of 257 gets 2." Ids and kinds of equal length or nearly so, unused places of the list zero or not.
pub fn long_lists(comparison: &mut Comparison, random: &mut Random, size: Size) -> Compared {
    let mut request = Request::new(0);
    for _ in 0..size.pick(500, 10_000, 200_000) {
        let count = random.pick(&[3, 20, CAPACITY]);
        let ids = generate::ids(random, count);
        *request = Request::zero();
        request.state = generate::in_order(random, &ids);
        request.call = random.pick(&[SIMPLE, ENTER_JOINT]);
        let length = random.between(250, LIST_PLACES);
        request.list = List::of(&generate::changes(random, &ids, length));
        match random.below(8) {
            0 => request.list.kinds_count -= 1,
            1 => request.list.ids_count -= 1,
            2 => unused_places(random, &mut request.list),
            _ => {}
        }
        comparison.call(&request)?;
    }
    Ok(())
}

/// Cuts a list short, and leaves what stood in its places.
fn unused_places(random: &mut Random, list: &mut List) {
    let count = random.below(list.ids_count as usize) as u64;
    (list.ids_count, list.kinds_count) = (count, count);
    list.kinds[LIST_PLACES - 1] = 255;
}

/// States with 60 to 64 tracked ids; lists, logs and restores that free room, fill it and want more.
pub fn full(comparison: &mut Comparison, random: &mut Random, size: Size) -> Compared {
    let mut request = Request::new(0);
    for _ in 0..size.pick(2_000, 40_000, 800_000) {
        let ids = generate::ids(random, CAPACITY + 6);
        let tracked = random.between(CAPACITY - 4, CAPACITY);
        *request = Request::zero();
        let make = random.pick(&[generate::in_order, generate::in_order, generate::formed]);
        request.state = make(random, &ids[..tracked]);
        request.call = random.pick(&[SIMPLE, ENTER_JOINT, ENTER_JOINT, APPLY_CONF, RESTORE, RESTORE_STEP_BY_STEP]);
        request.auto_leave = random.flag();
        request.next_idx = random.number();
        let length = random.between(0, 14);
        let mut list = turnover(random, &ids, length);
        if random.one_in(4) {
            list = without_voters(random, &ids[..tracked], &list, &mut request);
        }
        request.list = List::of(&list);
        request.conf = generate::conf(random, &ids[..tracked]);
        request.log = generate::log(random, &ids, 3 * length);
        request.conf_state = generate::conf_state(random, &ids);
        if random.one_in(3) {
            request.state = Request::new(0).state;
            long_conf_state(random, &ids, &mut request);
        }
        comparison.call(&request)?;
    }
    Ok(())
}

/// Removals, and additions of ids that are not tracked, mostly as learners.
fn turnover(random: &mut Random, ids: &[u64], count: usize) -> Vec<Change> {
    let change = |random: &mut Random| {
        let kind = random.pick(&[REMOVE_NODE, REMOVE_NODE, ADD_LEARNER_NODE, ADD_LEARNER_NODE, ADD_NODE]);
        let place = if kind == REMOVE_NODE { random.below(ids.len()) } else { random.between(CAPACITY - 8, ids.len() - 1) };
        (ids[place], kind)
    };
    (0..count).map(|_| change(random)).collect()
}

/// A state with a voter or two among learners, and a list that begins with their removal: 16 may come while no voter is left.
fn without_voters(random: &mut Random, tracked: &[u64], list: &[Change], request: &mut Request) -> Vec<Change> {
    let (voters, learners) = tracked.split_at(random.between(1, 2));
    let conf = &mut request.state.conf;
    (conf.incoming, conf.outgoing) = (Ids::of(voters), Ids::zero());
    (conf.learners, conf.learners_next, conf.auto_leave) = (Ids::of(learners), Ids::zero(), 0);
    request.state.tracked = Ids::of(tracked);
    voters.iter().map(|&id| (id, REMOVE_NODE)).chain(list.iter().copied()).collect()
}

/// 60 to 70 ids in the four lists together, or 64 of one list and 65.
fn long_conf_state(random: &mut Random, ids: &[u64], request: &mut Request) {
    request.call = random.pick(&[RESTORE, RESTORE_STEP_BY_STEP]);
    let ends = [random.between(1, 64), random.between(0, 30), random.between(0, 30)];
    let (voters, learners) = (&ids[..ends[0]], &ids[ends[0].min(ids.len())..(ends[0] + ends[1]).min(ids.len())]);
    request.conf_state.voters = Ids::of(voters);
    request.conf_state.learners = Ids::of(learners);
    request.conf_state.voters_outgoing = if random.one_in(2) { Ids::of(&ids[..ends[2]]) } else { Ids::zero() };
    request.conf_state.learners_next = Ids::of(&ids[ids.len() - random.between(0, 4)..]);
    let list = random.below(4);
    if random.one_in(6) {
        request.conf_state.lists_mut()[list].count = random.pick(&[64, 65, 66, u64::MAX]);
    }
}

/// Few ids, the least and the largest among them, in sets and in changes.
pub fn ends(comparison: &mut Comparison, random: &mut Random, size: Size) -> Compared {
    let pools: [&[u64]; 4] = [&[0, u64::MAX], &[0, 1, u64::MAX - 1, u64::MAX], &[u64::MAX], &[1, 1 << 63, u64::MAX]];
    let mut request = Request::new(0);
    for _ in 0..size.pick(2_000, 40_000, 400_000) {
        let ids = random.pick(&pools);
        *request = Request::zero();
        let make = random.pick(&[generate::in_order, generate::two_roles, generate::formed]);
        request.state = make(random, ids);
        request.state.max_inflight %= 300;
        let call = &CALLS[random.below(CALLS.len())];
        generate::arguments(random, call, ids, &mut request);
        comparison.call(&request)?;
    }
    Ok(())
}
