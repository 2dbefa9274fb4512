//! Entries that do nothing: document 02, b). Counts worked by hand from document 01's table, and the two ways in which the Rust's answers to
//! a list's prefixes are asked for (src/oracle/idle.rs), beside each other.

use super::examples::{add, learner, remove};
use super::states::{changes_of, each_state, lists_of, passes};
use super::Size;
use crate::calls::{ENTER_JOINT, SIMPLE};
use crate::compare::{Against, Compared, Comparison, Difference, Failure, Input};
use crate::oracle::Rust;
use crate::random::Random;
use crate::show;
use crate::words::{Change, Ids, List, Request};

/// A reply's number and its count.
type Given = (u64, u64);

fn idle(count: u64) -> Given {
    (0, count)
}

/// "a refused call gives 0"
fn refused(number: u64) -> Given {
    (number, 0)
}

/// Voters 1 and 2, learner 3; 4 is tracked and in no set.
fn some_boxes() -> Box<Request> {
    let mut request = Request::new(0);
    request.state.conf.incoming = Ids::of(&[1, 2]);
    request.state.conf.learners = Ids::of(&[3]);
    request.state.tracked = Ids::of(&[1, 2, 3, 4]);
    request
}

/// A list on these boxes, what `simple` gives and what `enter_joint` does. Within `enter_joint` 1 and 2 stand IO.
fn on_some_boxes() -> Vec<(Vec<Change>, Given, Given)> {
    vec![
        (vec![], idle(0), idle(0)),
        // none
        (vec![add(5)], idle(0), idle(0)),
        (vec![learner(5)], idle(0), idle(0)),
        (vec![remove(5)], idle(1), idle(1)),
        // idle: its removal is logged
        (vec![add(4)], idle(0), idle(0)),
        (vec![learner(4)], idle(0), idle(0)),
        (vec![remove(4)], idle(0), idle(0)),
        (vec![remove(4), remove(4)], idle(1), idle(1)),
        // L
        (vec![add(3)], idle(0), idle(0)),
        (vec![learner(3)], idle(1), idle(1)),
        (vec![learner(3), learner(3)], idle(2), idle(2)),
        (vec![remove(3)], idle(0), idle(0)),
        (vec![learner(5), learner(5)], idle(1), idle(1)),
        // I, and IO
        (vec![add(2)], idle(1), idle(1)),
        (vec![learner(2)], idle(0), idle(0)),
        (vec![remove(2)], idle(0), idle(0)),
        // none again, and O
        (vec![remove(2), add(2)], idle(0), idle(0)),
        (vec![remove(2), learner(2)], idle(0), idle(0)),
        (vec![remove(2), remove(2)], idle(1), idle(1)),
        // L, and OS
        (vec![learner(2), add(2)], idle(0), idle(0)),
        (vec![learner(2), learner(2)], idle(1), idle(1)),
        (vec![learner(2), remove(2)], idle(0), idle(0)),
        (vec![learner(2), remove(2), remove(2), learner(2), learner(2), add(2), add(2)], idle(3), idle(3)),
        // id 0
        (vec![add(0)], idle(1), idle(1)),
        (vec![add(0), learner(0), remove(0)], idle(3), idle(3)),
        (vec![add(0); 256], idle(256), idle(256)),
        (vec![add(1); 256], idle(256), idle(256)),
        ([vec![add(0); 255], vec![add(5)]].concat(), idle(255), idle(255)),
        // while no voter is left, and while two have changed
        (vec![remove(1), remove(2), remove(2), add(1), add(2)], idle(1), idle(1)),
        (vec![add(5), add(6), add(1), learner(3), remove(5)], idle(2), idle(2)),
        // refused
        (vec![add(0); 257], refused(2), refused(2)),
        (vec![add(0), (1, 3)], refused(3), refused(3)),
        (vec![add(0), add(1), remove(1), remove(2)], refused(17), refused(17)),
        (vec![add(0), add(1), add(5), add(6)], refused(18), idle(2)),
    ]
}

/// Lists on the fresh state, which cannot be entered.
fn on_fresh() -> Vec<(Vec<Change>, Given, Given)> {
    vec![
        (vec![add(0)], refused(17), refused(15)),
        (vec![remove(1), add(0), add(1), add(1)], idle(3), refused(15)),
        (vec![learner(1), learner(1), add(1)], idle(1), refused(15)),
    ]
}

pub fn examples(comparison: &mut Comparison, _: &mut Random, _: Size) -> Compared {
    for (mut request, cases) in [(some_boxes(), on_some_boxes()), (Request::new(0), on_fresh())] {
        for (list, simple, enter) in cases {
            request.list = List::of(&list);
            for (call, expected) in [(SIMPLE, simple), (ENTER_JOINT, enter)] {
                request.call = call;
                comparison.call(&request)?;
                let reply = comparison.expected(&request).0;
                agree(&request, Against::Paper, (reply.number, reply.idle), expected)?;
            }
        }
    }
    Ok(())
}

pub const BOTH_WAYS: &str = "idle entries: the Rust's prefixes plainly and with repairs";

/// Every state over two ids that passes the check, every short list: each entry judged with one more voter and repairs, also where the
/// Rust accepts both prefixes as they are.
pub fn both_ways(comparison: &mut Comparison, _: &mut Random, size: Size) -> Compared {
    let lists = lists_of(&changes_of(&[0, 1, 2, 3]), size.pick(1, 3, 3));
    let mut rust = Rust::default();
    each_state(&[1, 2], &mut Request::new(0), &mut |request| {
        if request.state.conf.outgoing.count != 0 || !passes(request) {
            return Ok(());
        }
        for list in &lists {
            request.list.set(list);
            for call in [SIMPLE, ENTER_JOINT] {
                request.call = call;
                judged_twice(comparison, &mut rust, request)?;
            }
        }
        Ok(())
    })
}

/// Only a list that the Rust accepts is an input here.
fn judged_twice(comparison: &mut Comparison, rust: &mut Rust, request: &Request) -> Compared {
    let Some(reply) = comparison.expected(request).1.filter(|reply| reply.number == 0) else { return Ok(()) };
    let plainly = reply.idle;
    (comparison.inputs, comparison.with_rust) = (comparison.inputs + 1, comparison.with_rust + 1);
    comparison.accepted += 1;
    let repaired = rust.idle_with_repairs(request);
    agree(request, Against::Rust, idle(plainly), idle(repaired))
}

fn agree(request: &Request, against: Against, given: Given, expected: Given) -> Compared {
    if given == expected {
        return Ok(());
    }
    let what = format!("number and idle entries: {given:?}, expected {expected:?}");
    let input = Input::Other(show::request(request));
    Err(Box::new(Failure { input, difference: Difference { against, what } }))
}
