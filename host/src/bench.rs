//! Times both sides on the same calls and scripts. The Rust is asked on its own values; the other side is asked through its C
//! entries, so a call's time has the reading of the request's 20,216 bytes and the writing of the reply's 13,960 in it. A script
//! has neither, and unplug only the reading of the state's 7,736. A second table sets unplug beside the call that it stands for,
//! a third the reading and writing of messages beside the plain Rust of src/message/plain.rs, which checks as much and has the
//! same lists, and the comparing of two beside that of src/lines/plain.rs, which reads them by the former and says the same
//! lines. Times are of the processor, so that other programs on the machine do not count; the shortest of many batches is shown.
//! What is timed is linked code: on x86-64 the static libraries', elsewhere the native code of the same LLVM modules. Emulated
//! code is never timed.

use crate::calls::{removal, APPLY_CONF, CHECK, ENTER_JOINT, LEAVE_JOINT, RESTORE, SIMPLE};
use crate::compare::Comparison;
use crate::groups::comparisons::{longest_pair, one_swapped};
use crate::groups::scripts::script;
use crate::lines::{self, LONGEST_LINES};
use crate::message::{plain, LONGEST_MESSAGE};
use crate::oracle::{self, Replaying};
use crate::run::CANNOT_RUN;
use crate::script::{listing, ENTER, LEAVE, LONGEST_SCRIPT, RECORD, SIMPLE as RUN};
use crate::subject::{linked_code, say_missing, Linked, Subject, LINKED_IS_EMULATED};
use crate::timing::{processor, time, Time};
use crate::words::{
    Block, Change, ConfState, Ids, List, Record, Request, ADD_LEARNER_NODE, ADD_NODE, REMOVE_NODE, REPLY_BYTES, VERDICT_WORDS,
};
use raft::eraftpb::ConfChangeSingle;
use raft::{Changer, ProgressTracker};
use std::hint::black_box;
use std::process::ExitCode;

pub fn run() -> ExitCode {
    if LINKED_IS_EMULATED {
        println!("host: times of emulated code mean nothing; scripts/native makes native code of the libraries");
        println!("host: the entries are emulated here, and not timed");
        return ExitCode::from(CANNOT_RUN);
    }
    println!("the Rust in {}, and {}, on {}", env!("RAFT_SRC_TRIED"), linked_code(), processor());
    say_missing("its times are those of the model of the paper");
    header("Rust", "other");
    the_layout();
    for size in SIZES {
        simple_and_apply(size);
        enter_and_leave(size);
        unplug(size);
        restore(size);
        restore_joint(size);
        scripts(size);
    }
    println!();
    header("simple", "unplug");
    for size in SIZES {
        unplug_beside_simple(size);
    }
    println!();
    header("plain Rust", "other");
    for (name, first, size) in MESSAGES {
        let ids: Vec<u64> = (first..).take(size).collect();
        messages(name, &ids);
    }
    comparing("5 voters, one swapped", &one_swapped());
    comparing("512 ids that all differ", &longest_pair());
    ExitCode::SUCCESS
}

const SIZES: [usize; 4] = [3, 5, 16, 64];

fn header(one: &str, other: &str) {
    println!("{:52}{one:>12}{other:>12}{:>9}", "", "ratio");
}

fn report(name: &str, one: Time, other: Time) {
    println!("{name:52}{:>12}{:>12}{:>9.2}", shown(one), shown(other), other / one);
}

fn shown(nanoseconds: Time) -> String {
    if nanoseconds < 1e3 {
        format!("{nanoseconds:.1} ns")
    } else {
        format!("{:.2} µs", nanoseconds / 1e3)
    }
}

// ** Calls

/// A group of voters, each with a record, `max_inflight` 256.
fn group(size: usize) -> Box<Request> {
    let mut request = Request::new(0);
    let voters: Vec<u64> = (1..=size as u64).collect();
    request.state.conf.incoming = Ids::of(&voters);
    request.state.tracked = Ids::of(&voters);
    for record in &mut request.state.records[..size] {
        *record = Record { matched: 5, next_idx: 6, recent_active: 1, max_inflight: 256, ..Record::zero() };
    }
    request.state.max_inflight = 256;
    request.next_idx = 10;
    request
}

/// What a call costs that has next to nothing to do: reading and writing the words.
fn the_layout() {
    let tracker = ProgressTracker::new(0);
    let rust = time(1, || {
        let _ = black_box(Changer::new(black_box(&tracker)).check());
    });
    report("check of the fresh state: the words alone", rust, time_of_call(&Request::new(CHECK)));
}

fn time_of_call(request: &Request) -> Time {
    let mut reply = vec![0; REPLY_BYTES];
    time(1, || {
        Linked.call(black_box(request.bytes()), &mut reply);
        black_box(&reply);
    })
}

/// Whether the last voter of a group can be unplugged. The Rust has no such question: it is asked for `simple` with that removal.
fn unplug(size: usize) {
    let request = last_removed(size);
    let (tracker, list) = (oracle::tracker(&request.state), oracle::changes(request.list.changes()));
    let rust = time(1, || {
        let _ = black_box(Changer::new(black_box(&tracker)).simple(black_box(&list)));
    });
    report(&format!("unplug, group of {size}"), rust, time_of_unplug(&request));
}

/// The same beside `simple` by `dimecandle_call`, which answers it too.
fn unplug_beside_simple(size: usize) {
    let request = last_removed(size);
    report(&format!("one voter removed, group of {size}"), time_of_call(&request), time_of_unplug(&request));
}

fn last_removed(size: usize) -> Box<Request> {
    removal(&group(size).state, size as u64)
}

fn time_of_unplug(request: &Request) -> Time {
    let mut verdict = [0; VERDICT_WORDS];
    time(1, || {
        Linked.unplug(black_box(request.state.words()), request.list.ids[0], &mut verdict);
        black_box(&verdict);
    })
}

/// A call of a cycle; each is followed by its `apply_conf`.
enum Step {
    Simple(Change),
    Enter(Change),
    Leave,
}

/// Removes the last voter and adds it again: back at the beginning after two calls.
fn simple_and_apply(size: usize) {
    let last = size as u64;
    let steps = [Step::Simple((last, REMOVE_NODE)), Step::Simple((last, ADD_NODE))];
    cycle(&format!("simple+apply, group of {size}"), size, &steps, 2);
}

/// Makes the last voter a learner by way of a joint configuration, and a voter again.
fn enter_and_leave(size: usize) {
    let last = size as u64;
    let steps = [Step::Enter((last, ADD_LEARNER_NODE)), Step::Leave, Step::Enter((last, ADD_NODE)), Step::Leave];
    cycle(&format!("enter+apply+leave+apply, group of {size}"), size, &steps, 2);
}

fn cycle(name: &str, size: usize, steps: &[Step], things: usize) {
    let start = group(size);
    let mut tracker = oracle::tracker(&start.state);
    let lists: Vec<Vec<ConfChangeSingle>> = steps.iter().map(|step| oracle::changes(list(step))).collect();
    let rust = time(things, || {
        for (step, list) in steps.iter().zip(&lists) {
            rust_step(&mut tracker, step, black_box(list));
        }
    });
    let requests = requests(start, steps);
    let mut reply = vec![0; REPLY_BYTES];
    let other = time(things, || {
        for request in &requests {
            Linked.call(black_box(request.bytes()), &mut reply);
            black_box(&reply);
        }
    });
    report(name, rust, other);
}

fn list(step: &Step) -> Vec<Change> {
    match step {
        Step::Simple(change) | Step::Enter(change) => vec![*change],
        Step::Leave => vec![],
    }
}

fn rust_step(tracker: &mut ProgressTracker, step: &Step, list: &[ConfChangeSingle]) {
    let mut changer = Changer::new(tracker);
    let answer = match step {
        Step::Simple(_) => changer.simple(list),
        Step::Enter(_) => changer.enter_joint(false, list),
        Step::Leave => changer.leave_joint(),
    };
    let (conf, log) = answer.expect("the cycle is accepted");
    tracker.apply_conf(conf, log, 10);
}

/// The requests of a cycle, each with the state that the one before left.
fn requests(start: Box<Request>, steps: &[Step]) -> Vec<Box<Request>> {
    let mut comparison = Comparison::new(&Linked);
    let (mut request, mut all) = (start, vec![]);
    for step in steps {
        request.call = match step {
            Step::Simple(_) => SIMPLE,
            Step::Enter(_) => ENTER_JOINT,
            Step::Leave => LEAVE_JOINT,
        };
        request.list = List::of(&list(step));
        let answer = *comparison.expected(&request).0;
        all.push(request.clone());
        request.call = APPLY_CONF;
        (request.conf, request.log) = (answer.state.conf, answer.log);
        all.push(request.clone());
        request.state = comparison.expected(&request).0.state;
    }
    all
}

fn restore(size: usize) {
    let mut request = Request::new(RESTORE);
    request.conf_state.voters = group(size).state.conf.incoming;
    restoring(&format!("restore, {size} voters"), request);
}

/// Half of the group goes out; a learner is staged.
fn restore_joint(size: usize) {
    let all: Vec<u64> = (1..=size as u64).collect();
    let mut request = Request::new(RESTORE);
    request.conf_state.voters = Ids::of(&all[size / 2..]);
    request.conf_state.voters_outgoing = Ids::of(&all[..size - 1]);
    request.conf_state.learners_next = Ids::of(&all[..1]);
    restoring(&format!("restore, joint group of {size}"), request);
}

fn restoring(name: &str, mut request: Box<Request>) {
    request.state.max_inflight = 256;
    request.next_idx = 10;
    let lists = oracle::conf_state(&request.conf_state);
    let rust = time(1, || {
        let mut tracker = ProgressTracker::new(256);
        raft::restore(&mut tracker, 10, black_box(&lists)).expect("the lists are accepted");
        black_box(&tracker);
    });
    report(name, rust, time_of_call(&request));
}

// ** Scripts

/// The same cycles as scripts of the greatest length, from the first voter on; the time is that of one call with its line.
fn scripts(size: usize) {
    let last = size as u64;
    let simple = [(1, last), (RUN, 10), (0, last), (RUN, 10)];
    let joint = [(2, last), (ENTER, 10), (LEAVE, 10), (0, last), (ENTER, 10), (LEAVE, 10)];
    replaying(&format!("script of simple, a line, group of {size}"), size, &simple);
    replaying(&format!("script of enter and leave, a line, group of {size}"), size, &joint);
}

fn replaying(name: &str, size: usize, cycle: &[(u8, u64)]) {
    let mut records: Vec<(u8, u64)> = (1..=size as u64).flat_map(|id| [(0, id), (RUN, 10)]).collect();
    while records.len() + cycle.len() <= LONGEST_SCRIPT / RECORD {
        records.extend(cycle);
    }
    let bytes = script(&records);
    let text = listing(&bytes, &mut Replaying::plain());
    let lines = text.iter().filter(|&&byte| byte == b'\n').count();
    let rust = time(lines, || {
        black_box(listing(black_box(&bytes), &mut Replaying::plain()));
    });
    let mut out = vec![0; text.len()];
    let other = time(lines, || {
        assert_eq!(Linked.replay(black_box(&bytes), &mut out), text.len() as u64);
    });
    report(name, rust, other);
}

// ** Messages

/// Voters alone: what they are, the first id and how many. Those from 2^63 on take ten bytes each.
const MESSAGES: [(&str, u64, usize); 3] =
    [("5 voters", 1, 5), ("64 voters", 1, 64), ("64 voters with ids of 10 bytes", 1 << 63, 64)];

fn messages(name: &str, ids: &[u64]) {
    let mut lists = ConfState::zero();
    lists.voters = Ids::of(ids);
    let (mut bytes, mut read) = ([0; LONGEST_MESSAGE], ConfState::zero());
    let length = plain::write(&lists, &mut bytes) as usize;
    let message = bytes[..length].to_vec();
    let plain_read = time(1, || {
        assert_eq!(plain::read(black_box(&message), &mut read), 0);
        black_box(&read);
    });
    let other_read = time(1, || {
        assert_eq!(Linked.read_conf_state(black_box(&message), read.words_mut()), 0);
        black_box(&read);
    });
    assert!(read == lists, "it reads what was written");
    report(&format!("message read, {name}"), plain_read, other_read);
    let plain_write = time(1, || {
        assert_eq!(plain::write(black_box(&lists), &mut bytes), length as u64);
        black_box(&bytes);
    });
    let other_write = time(1, || {
        assert_eq!(Linked.write_conf_state(black_box(lists.words()), &mut bytes), length as u64);
        black_box(&bytes);
    });
    report(&format!("message written, {name}"), plain_write, other_write);
}

// ** Two messages

fn comparing(name: &str, [first, second]: &[Vec<u8>; 2]) {
    let (mut out, mut said) = ([0; LONGEST_LINES], [0; LONGEST_LINES]);
    let length = lines::plain::compare(first, second, &mut said);
    let plain = time(1, || {
        assert_eq!(lines::plain::compare(black_box(first), black_box(second), &mut out), length);
        black_box(&out);
    });
    out.fill(0);
    let other = time(1, || {
        assert_eq!(Linked.compare(black_box(first), black_box(second), &mut out), length);
        black_box(&out);
    });
    assert!(out == said, "it says the same lines");
    report(&format!("messages compared, {name}"), plain, other);
}
