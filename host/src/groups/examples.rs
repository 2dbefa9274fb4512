//! Document 01, "Checked examples": each is run through the subject, the Rust and the model, and its answer is held against the paper's
//! own words. Those that restore are asked under both names: example 12 asks "by name for step-by-step restore", as document 02, g) says, and
//! by `restore` its lists leave the state fresh. Example 14 is also asked whether it is in order, which document 02, h) decides.

use super::Size;
use crate::calls::{APPLY_CONF, CHECK, ENTER_JOINT, IN_ORDER, LEAVE_JOINT, RESTORE, RESTORE_STEP_BY_STEP, SIMPLE};
use crate::compare::{Against, Compared, Comparison, Difference, Failure, Input};
use crate::random::Random;
use crate::show;
use crate::words::{Block, Change, Conf, Ids, List, Record, Reply, Request, ADD_LEARNER_NODE, ADD_NODE, REMOVE, REMOVE_NODE};

/// One call of an example; an accepted answer is applied before the next.
enum Do {
    Check,
    InOrder,
    Simple(Vec<Change>),
    Enter(Vec<Change>),
    Leave,
    Restore(Lists),
    StepByStep(Lists),
}

use Do::{Check, Enter, InOrder, Leave, Restore, Simple, StepByStep};

/// voters, learners, voters_outgoing, learners_next
type Lists = [&'static [u64]; 4];

pub fn add(id: u64) -> Change {
    (id, ADD_NODE)
}

pub fn remove(id: u64) -> Change {
    (id, REMOVE_NODE)
}

pub fn learner(id: u64) -> Change {
    (id, ADD_LEARNER_NODE)
}

/// Incoming, outgoing, learners, staged; the members are tracked.
type Start = [Vec<u64>; 4];

fn fresh() -> Start {
    Start::default()
}

fn voters(incoming: &[u64]) -> Start {
    [incoming.to_vec(), vec![], vec![], vec![]]
}

fn with_learners(incoming: &[u64], learners: &[u64]) -> Start {
    [incoming.to_vec(), vec![], learners.to_vec(), vec![]]
}

type Example = (&'static str, Start, Vec<(Do, &'static str)>);

fn all() -> Vec<Example> {
    lists().into_iter().chain(restores()).collect()
}

/// Those without a restore.
fn lists() -> Vec<Example> {
    let up_to_63: Vec<u64> = (1..=63).collect();
    let nearly_full = || with_learners(&up_to_63, &[64]);
    vec![
        ("1", fresh(), vec![(Simple(vec![add(1)]), "ok (1) log (+1)")]),
        ("2", fresh(), vec![(Simple(vec![]), "17 id 0")]),
        ("2", fresh(), vec![(Simple(vec![add(0)]), "17 id 0")]),
        ("3", fresh(), vec![(Simple(vec![add(1), add(2)]), "18 id 0")]),
        ("4", voters(&[1]), vec![(Simple(vec![add(2), remove(2)]), "ok (1) log (+2 -2)")]),
        ("5", voters(&[1, 2, 3]), vec![(Simple(vec![remove(3), add(4)]), "18 id 0")]),
        ("6", voters(&[1]), vec![(Simple(vec![remove(1)]), "17 id 0")]),
        ("7", fresh(), vec![(Enter(vec![add(1)]), "15 id 0")]),
        (
            "8",
            voters(&[1, 2, 3]),
            vec![
                (Enter(vec![learner(3), add(4)]), "ok (1 2 4)&&(1 2 3) staged (3) log (+4)"),
                (Leave, "ok (1 2 4) learners (3) log ()"),
            ],
        ),
        ("9", voters(&[1, 2, 3]), vec![(Enter(vec![remove(3)]), "ok (1 2)&&(1 2 3) log ()"), (Leave, "ok (1 2) log (-3)")]),
        (
            "10",
            with_learners(&[1], &[2]),
            vec![(Simple(vec![remove(2), learner(2)]), "ok (1) learners (2) log (-2 +2), 2 fresh")],
        ),
        ("14", [vec![1, 2], vec![1, 2], vec![], vec![2]], vec![(Check, "ok"), (InOrder, "no"), (Leave, "10 id 2")]),
        // document 02, h): the same state where 2 is staged and no incoming voter
        (
            "14, its neighbour in order",
            [vec![1], vec![1, 2], vec![], vec![2]],
            vec![(Check, "ok"), (InOrder, "yes"), (Leave, "ok (1) learners (2) log ()")],
        ),
        ("15, this order", nearly_full(), vec![(Simple(vec![remove(64), learner(65)]), "ok log (-64 +65)")]),
        ("15, the other order", nearly_full(), vec![(Simple(vec![learner(65), remove(64)]), "16 id 65")]),
        ("15, a list of 256", voters(&[1]), vec![(Simple(vec![add(1); 256]), "ok (1) log ()")]),
        ("15, a list of 257", voters(&[1]), vec![(Simple(vec![add(1); 257]), "2 id 0")]),
    ]
}

fn restores() -> Vec<Example> {
    let of_12: Lists = [&[1, 2], &[1, 2], &[], &[]];
    let mut examples = vec![
        ("12", fresh(), vec![(StepByStep(of_12), "17 id 0 (2) learners (1) tracked (1 2)")]),
        ("12, whole", fresh(), vec![(Restore(of_12), "17 id 0 () tracked ()")]),
    ];
    for restore in [Restore, StepByStep] {
        examples.extend(either_way(restore));
    }
    examples
}

/// Accepted, or refused at the first step: both names give the same.
fn either_way(restore: fn(Lists) -> Do) -> Vec<Example> {
    vec![
        (
            "11",
            fresh(),
            vec![
                (
                    restore([&[1, 2, 3], &[5], &[1, 2, 4, 6], &[4]]),
                    "ok (1 2 3)&&(1 2 4 6) learners (5) staged (4) tracked (1 2 3 4 5 6)",
                ),
                (Leave, "ok (1 2 3) learners (4 5) log (-6)"),
            ],
        ),
        ("13", fresh(), vec![(restore([&[0, 1], &[], &[], &[]]), "17 id 0 () tracked ()")]),
        ("13", fresh(), vec![(restore([&[1, 0], &[], &[], &[]]), "ok (1) tracked (1)")]),
        // "Four empty lists are accepted and change nothing."
        ("restore, last sentence", voters(&[1]), vec![(restore([&[], &[], &[], &[]]), "ok (1) tracked (1)")]),
    ]
}

pub fn examples(comparison: &mut Comparison, _: &mut Random, _: Size) -> Compared {
    for (name, start, steps) in all() {
        let mut request = started(&start);
        for (step, paper) in steps {
            ask(&mut request, &step);
            comparison.call(&request)?;
            let reply = *comparison.expected(&request).0;
            let said = said(&request, &reply);
            if !agrees(&said, paper) {
                let what = format!("it gives {said:?}, and the paper says {paper:?}");
                let input = Input::Other(format!("example {name}: {}", show::request(&request)));
                return Err(Box::new(Failure { input, difference: Difference { against: Against::Paper, what } }));
            }
            follow(comparison, &mut request, &reply)?;
        }
    }
    Ok(())
}

fn started(start: &Start) -> Box<Request> {
    let mut request = Request::new(0);
    for (to, from) in request.state.conf.sets_mut().into_iter().zip(start) {
        *to = Ids::of(from);
    }
    let mut members: Vec<u64> = start.iter().flatten().copied().collect();
    members.sort_unstable();
    members.dedup();
    request.state.tracked = Ids::of(&members);
    request.state.max_inflight = 7;
    for place in 0..members.len() {
        request.state.records[place] = Record { matched: 100, ..Record::zero() };
    }
    request.next_idx = 11;
    request
}

fn ask(request: &mut Request, step: &Do) {
    match step {
        Check => request.call = CHECK,
        InOrder => request.call = IN_ORDER,
        Leave => request.call = LEAVE_JOINT,
        Simple(list) => (request.call, request.list) = (SIMPLE, List::of(list)),
        Enter(list) => (request.call, request.list) = (ENTER_JOINT, List::of(list)),
        Restore(lists) => ask_restore(request, RESTORE, lists),
        StepByStep(lists) => ask_restore(request, RESTORE_STEP_BY_STEP, lists),
    }
}

fn ask_restore(request: &mut Request, call: u64, lists: &Lists) {
    request.call = call;
    for (to, from) in request.conf_state.lists_mut().into_iter().zip(lists) {
        *to = Ids::of(from);
    }
}

/// Takes over what was accepted.
pub fn follow(comparison: &mut Comparison, request: &mut Request, reply: &Reply) -> Compared {
    if matches!(request.call, SIMPLE | ENTER_JOINT | LEAVE_JOINT) && reply.number == 0 {
        (request.conf, request.log) = (reply.state.conf, reply.log);
        request.call = APPLY_CONF;
        comparison.call(request)?;
        request.state = comparison.expected(request).0.state;
    } else {
        request.state = reply.state;
    }
    Ok(())
}

/// An answer in the words of the table above.
fn said(request: &Request, reply: &Reply) -> String {
    let verdict = if reply.number == 0 { "ok".to_string() } else { format!("{} id {}", reply.number, reply.id) };
    let conf = written(&reply.state.conf);
    match request.call {
        IN_ORDER => if reply.yes == 1 { "yes" } else { "no" }.to_string(),
        RESTORE | RESTORE_STEP_BY_STEP => format!("{verdict} {conf} tracked {}", ids(&reply.state.tracked)),
        SIMPLE | ENTER_JOINT | LEAVE_JOINT if reply.number == 0 => {
            let sign = |kind| if kind == REMOVE { '-' } else { '+' };
            let log: Vec<String> = reply.log.used().iter().map(|entry| format!("{}{}", sign(entry.kind), entry.id)).collect();
            format!("{verdict} {conf} log ({})", log.join(" "))
        }
        _ => verdict,
    }
}

/// The paper leaves out what does not matter to its example: "ok log .." names no set, ", 2 fresh" follows from the log.
fn agrees(said: &str, paper: &str) -> bool {
    let paper = paper.strip_suffix(", 2 fresh").unwrap_or(paper);
    match paper.strip_prefix("ok log ") {
        Some(log) => said.starts_with("ok ") && said.ends_with(&format!(" log {log}")),
        None => said == paper,
    }
}

fn written(conf: &Conf) -> String {
    let mut text = ids(&conf.incoming);
    if conf.outgoing.count != 0 {
        text += &format!("&&{}", ids(&conf.outgoing));
    }
    for (name, set) in [("learners", &conf.learners), ("staged", &conf.learners_next)] {
        if set.count != 0 {
            text += &format!(" {name} {}", ids(set));
        }
    }
    text
}

fn ids(ids: &Ids) -> String {
    format!("({})", ids.used().iter().map(u64::to_string).collect::<Vec<_>>().join(" "))
}
