//! Every small restore, under both names, and how the two answers go together. Document 02, g): "By default a refused `restore` .. returns
//! the state it was given, with the same number and id", and "step-by-step restore .. stays as document 01 has it".

use super::states::{each_state, lists_of, Visit};
use super::Size;
use crate::calls::{RESTORE, RESTORE_STEP_BY_STEP};
use crate::compare::{Against, Compared, Comparison, Difference, Failure, Input};
use crate::random::Random;
use crate::show;
use crate::words::{Ids, Reply, Request, State};

/// Every choice of four of these lists.
pub fn each_lists(lists: &[Ids], request: &mut Request, visit: Visit) -> Compared {
    let count = lists.len();
    for choice in 0..count.pow(4) {
        for (place, to) in request.conf_state.lists_mut().into_iter().enumerate() {
            *to = lists[choice / count.pow(place as u32) % count];
        }
        visit(request)?;
    }
    Ok(())
}

pub fn ids_lists(ids: &[u64], longest: usize) -> Vec<Ids> {
    lists_of(ids, longest).iter().map(|list| Ids::of(list)).collect()
}

pub fn to_fresh(comparison: &mut Comparison, _: &mut Random, size: Size) -> Compared {
    let lists = size.pick(ids_lists(&[0, 1], 2), ids_lists(&[0, 1, 2], 2), ids_lists(&[0, 1, 2, 3], 2));
    let mut request = Request::new(0);
    request.next_idx = 9;
    request.state.max_inflight = 3;
    each_lists(&lists, &mut request, &mut |request| with_flags(comparison, request, &[0, 1]))
}

/// Also joint states, and those that fail the check: there four empty lists are still accepted. The flag matters to the last step only: one
/// of the two is drawn, and in a long run both are tried.
pub fn to_any(comparison: &mut Comparison, random: &mut Random, size: Size) -> Compared {
    let lists = size.pick(ids_lists(&[2], 1), ids_lists(&[1, 2], 1), ids_lists(&[1, 2, 3], 1));
    let mut request = Request::new(0);
    request.next_idx = 9;
    each_state(&[1, 2], &mut request, &mut |request| {
        each_lists(&lists, request, &mut |request| {
            let drawn = [random.flag()];
            let flags = if size == Size::Long { &[0, 1][..] } else { &drawn };
            with_flags(comparison, request, flags)
        })
    })
}

fn with_flags(comparison: &mut Comparison, request: &mut Request, flags: &[u64]) -> Compared {
    for &flag in flags {
        request.conf_state.auto_leave = flag;
        both_names(comparison, request)?;
    }
    Ok(())
}

// ** The two names beside each other

/// Asks both names of the same state and lists, compares each answer, and holds the one against the other. Gives that of `restore`.
pub fn both_names(comparison: &mut Comparison, request: &mut Request) -> Result<Box<Reply>, Box<Failure>> {
    let by_steps = asked(comparison, RESTORE_STEP_BY_STEP, request)?;
    let whole = asked(comparison, RESTORE, request)?;
    match apart(&request.state, &by_steps, &whole) {
        None => Ok(whole),
        Some(what) => {
            let input = Input::Other(format!("under both names: {}", show::request(request)));
            Err(Box::new(Failure { input, difference: Difference { against: Against::Paper, what } }))
        }
    }
}

/// The answer of all sides.
pub fn asked(comparison: &mut Comparison, call: u64, request: &mut Request) -> Result<Box<Reply>, Box<Failure>> {
    request.call = call;
    comparison.call(request)?;
    Ok(Box::new(*comparison.answer()))
}

/// How the two answers to one request do not go together: they have the same number and id; accepted, the same state; and a refused
/// `restore` gives the state given, word for word.
fn apart(given: &State, by_steps: &Reply, whole: &Reply) -> Option<String> {
    let (whole_says, steps_say) = ((whole.number, whole.id), (by_steps.number, by_steps.id));
    if whole_says != steps_say {
        return Some(format!("number and id: restore {whole_says:?}, restore_step_by_step {steps_say:?}"));
    }
    let (name, expected) = if whole.number == 0 { ("restore_step_by_step", &by_steps.state) } else { ("given", given) };
    let shown = || format!("state: restore {}\n{name} {}", show::state(&whole.state), show::state(expected));
    (whole.state != *expected).then(shown)
}
