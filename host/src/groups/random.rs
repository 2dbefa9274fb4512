//! Random states, each with one random call.

use super::restores::both_names;
use super::Size;
use crate::calls::{numbered, APPLY_CONF, CALLS, ENTER_JOINT, LEAVE_JOINT, RESTORE, RESTORE_STEP_BY_STEP, SIMPLE, TO_CONF_STATE};
use crate::compare::{Compared, Comparison};
use crate::generate;
use crate::random::Random;
use crate::words::{Block, List, Request};

/// A random call on a random state.
fn some_request(random: &mut Random, make: generate::MakeState, request: &mut Request) {
    let count = generate::size(random);
    let ids = generate::ids(random, count);
    *request = Request::zero();
    request.state = make(random, &ids);
    let call = &CALLS[random.below(CALLS.len())];
    generate::arguments(random, call, &ids, request);
}

/// So many random calls, each on a random state of one generator.
fn many(comparison: &mut Comparison, random: &mut Random, calls: usize, make: generate::MakeState) -> Compared {
    let mut request = Request::new(0);
    for _ in 0..calls {
        some_request(random, make, &mut request);
        comparison.call(&request)?;
    }
    Ok(())
}

pub fn in_order(comparison: &mut Comparison, random: &mut Random, size: Size) -> Compared {
    many(comparison, random, size.pick(3_000, 80_000, 2_000_000), generate::in_order)
}

/// States that are in order but for ids of two roles: the check passes, in order says no, and leaving is refused.
pub fn two_roles(comparison: &mut Comparison, random: &mut Random, size: Size) -> Compared {
    many(comparison, random, size.pick(1_000, 20_000, 500_000), generate::two_roles)
}

pub fn faulty(comparison: &mut Comparison, random: &mut Random, size: Size) -> Compared {
    many(comparison, random, size.pick(3_000, 80_000, 2_000_000), generate::formed)
}

/// Damage in one place or in several, so that 1, 2 and 3 meet each other and the refusals after them.
pub fn malformed(comparison: &mut Comparison, random: &mut Random, size: Size) -> Compared {
    let mut request = Request::new(0);
    for _ in 0..size.pick(3_000, 80_000, 2_000_000) {
        let make = random.pick(&[generate::in_order as generate::MakeState, generate::two_roles, generate::formed]);
        some_request(random, make, &mut request);
        for _ in 0..random.between(1, 3) {
            generate::damage(random, &mut request);
        }
        comparison.call(&request)?;
    }
    Ok(())
}

/// Sequences of calls from fresh, restores under both names among them. Each accepted answer is applied; on the way every state is checked,
/// written out and restored to fresh under both names.
pub fn sequences(comparison: &mut Comparison, random: &mut Random, size: Size) -> Compared {
    for _ in 0..size.pick(40, 600, 20_000) {
        let count = random.pick(&[3, 5, 8, 16, 70]);
        let ids = generate::ids(random, count);
        let mut request = Request::new(0);
        request.state.max_inflight = random.pick(&[0, 5, 256]);
        for _ in 0..random.between(1, 40) {
            comparison.plain_calls(&mut request)?;
            written_and_restored(comparison, &mut request)?;
            let step = if random.one_in(8) { restored } else { answered };
            step(comparison, random, &ids, &mut request)?;
        }
    }
    Ok(())
}

/// A restore, and the state that it leaves: a refused `restore` leaves the one given, a refused `restore_step_by_step` its earlier steps.
fn restored(comparison: &mut Comparison, random: &mut Random, ids: &[u64], request: &mut Request) -> Compared {
    let call = numbered(random.pick(&[RESTORE, RESTORE_STEP_BY_STEP])).expect("a call of the table");
    generate::arguments(random, call, ids, request);
    comparison.call(request)?;
    request.state = comparison.expected(request).0.state;
    Ok(())
}

/// A leave, mostly, of a joint state; else a list, mostly short.
pub fn some_step(random: &mut Random, ids: &[u64], request: &mut Request) {
    let joint = request.state.conf.outgoing.count != 0;
    request.call = if joint && !random.one_in(10) { LEAVE_JOINT } else { random.pick(&[SIMPLE, SIMPLE, ENTER_JOINT]) };
    let length = if random.one_in(2) { 1 } else { random.between(0, 6) };
    request.list = List::of(&generate::changes(random, ids, length));
    request.auto_leave = random.flag();
}

/// Another call, and the answer applied.
fn answered(comparison: &mut Comparison, random: &mut Random, ids: &[u64], request: &mut Request) -> Compared {
    some_step(random, ids, request);
    comparison.call(request)?;

    let answer = comparison.expected(request).0;
    if answer.number != 0 {
        return Ok(());
    }
    (request.conf, request.log) = (answer.state.conf, answer.log);
    request.call = APPLY_CONF;
    request.next_idx = random.number();
    comparison.call(request)?;
    request.state = comparison.expected(request).0.state;
    Ok(())
}

fn written_and_restored(comparison: &mut Comparison, request: &mut Request) -> Compared {
    request.call = TO_CONF_STATE;
    let written = comparison.expected(request).0.conf_state;
    let mut restore = Request::new(0);
    restore.state.max_inflight = request.state.max_inflight;
    restore.conf_state = written;
    both_names(comparison, &mut restore).map(|_| ())
}
