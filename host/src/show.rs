//! Inputs and differences in words.

use crate::calls::{self, Takes};
use crate::compare::messages::Reading;
use crate::compare::Input;
use crate::message::REFUSED;
use crate::model::Set;
use crate::script::RECORD;
use crate::shrink::LONG_MESSAGE;
use crate::words::{Block, Conf, ConfState, Entry, Ids, List, Log, Record, Reply, Request, State, Verdict, REMOVE};
use std::fmt::Write;

/// An input, a line for each of its parts.
pub fn input(input: &Input) -> String {
    match input {
        Input::Call(words) => request(words),
        Input::Wrapped(words) => format!("through dimecandle.rs: {}", request(words)),
        Input::State(words) => format!("asked of in order, left, written out and restored: {}", state(&words.state)),
        Input::Unplug(words, id) => unplug(words, *id),
        Input::Script(bytes) => script(bytes),
        Input::Message(bytes) => message(bytes),
        Input::Lists(lists) => format!("written: {}", conf_state(lists)),
        Input::Pair(first, second) => pair(first, second),
        Input::Other(text) => text.clone(),
    }
}

pub fn unplug(words: &State, id: u64) -> String {
    format!("unplug {id} of {}", state(words))
}

pub fn request(request: &Request) -> String {
    let (name, takes) = match calls::numbered(request.call) {
        Some(call) => (call.name, call.takes),
        None => ("unknown call", Takes::Nothing),
    };
    let mut text = format!("{name} on {}", state(&request.state));
    match takes {
        Takes::Nothing => {}
        Takes::List => write!(text, "\n  list {}", list(&request.list)).expect("a string"),
        Takes::ListAndFlag => {
            write!(text, "\n  auto_leave {}, list {}", request.auto_leave, list(&request.list)).expect("a string");
        }
        Takes::ConfLogAndNext => {
            let (conf, log) = (conf(&request.conf), log(&request.log));
            write!(text, "\n  next_idx {}, configuration {conf}\n  log {log}", request.next_idx).expect("a string");
        }
        Takes::ConfStateAndNext => {
            let lists = conf_state(&request.conf_state);
            write!(text, "\n  next_idx {}, {lists}", request.next_idx).expect("a string");
        }
    }
    text
}

pub fn state(state: &State) -> String {
    let mut text = format!("{} tracked {}, max_inflight {}", conf(&state.conf), ids(&state.tracked), state.max_inflight);
    for (place, record) in state.records.iter().enumerate() {
        if *record != Record::zero() {
            write!(text, "\n  record at place {place}: {record:?}").expect("a string");
        }
    }
    text
}

pub fn conf(conf: &Conf) -> String {
    let [incoming, outgoing, learners, staged] = conf.sets().map(ids);
    let flag = conf.auto_leave;
    format!("incoming {incoming} outgoing {outgoing} learners {learners} staged {staged} auto_leave {flag}")
}

pub fn conf_state(lists: &ConfState) -> String {
    let [voters, learners, outgoing, next] = lists.lists().map(ids);
    let flag = lists.auto_leave;
    format!("voters {voters} learners {learners} voters_outgoing {outgoing} learners_next {next} auto_leave {flag}")
}

/// The ids that the count covers; a count that is too large and places after the count are named where there are any.
fn ids(ids: &Ids) -> String {
    let mut text = spaced(ids.used().iter().map(u64::to_string));
    if ids.count as usize != ids.used().len() {
        write!(text, "[count {}]", ids.count).expect("a string");
    }
    for (place, id) in ids.ids.iter().enumerate().skip(ids.used().len()).filter(|(_, id)| **id != 0) {
        write!(text, "[unused place {place} holds {id}]").expect("a string");
    }
    text
}

fn list(list: &List) -> String {
    let names = ["add", "remove", "learner"];
    let name = |kind: u64| names.get(kind as usize).map_or(format!("kind {kind} of"), |name| name.to_string());
    let changes: Vec<String> = list.changes().map(|(id, kind)| format!("{} {id}", name(kind))).collect();
    let mut text = format!("({})", changes.join(", "));
    if list.ids_count != list.kinds_count || list.ids_count > 4 {
        write!(text, " [{} ids, {} kinds]", list.ids_count, list.kinds_count).expect("a string");
    }
    text
}

fn log(log: &Log) -> String {
    let mut text = spaced(log.used().iter().map(entry));
    if log.count as usize != log.used().len() {
        write!(text, "[count {}]", log.count).expect("a string");
    }
    let unused = Entry { id: 0, kind: 0 };
    for (place, entry) in log.entries.iter().enumerate().skip(log.used().len()).filter(|(_, e)| **e != unused) {
        write!(text, "[unused place {place} holds {entry:?}]").expect("a string");
    }
    text
}

fn entry(entry: &Entry) -> String {
    format!("{}{}", if entry.kind == REMOVE { '-' } else { '+' }, entry.id)
}

pub fn group(ids: &Set) -> String {
    spaced(ids.iter().map(u64::to_string))
}

fn spaced(items: impl Iterator<Item = String>) -> String {
    format!("({})", items.collect::<Vec<_>>().join(" "))
}

/// Two verdicts: the subject's first.
pub fn verdicts([number, id]: Verdict, expected: Verdict) -> String {
    format!("number: subject {number} id {id}, expected {} id {}", expected[0], expected[1])
}

/// A message, its bytes in hex.
pub fn message(bytes: &[u8]) -> String {
    format!("message of {} bytes: {}", bytes.len(), hex(bytes))
}

/// Two messages; of a very long one the beginning.
pub fn pair(first: &[u8], second: &[u8]) -> String {
    let shown = |bytes: &[u8]| match bytes.len() {
        length @ ..=LONG_MESSAGE => format!("message of {length} bytes: {}", hex(bytes)),
        length => format!("message of {length} bytes: {} ..", hex(&bytes[..20])),
    };
    format!("first {}\nsecond {}", shown(first), shown(second))
}

pub fn hex(bytes: &[u8]) -> String {
    let shown: Vec<String> = bytes.iter().map(|byte| format!("{byte:02x}")).collect();
    if shown.is_empty() {
        "none".to_string()
    } else {
        shown.join(" ")
    }
}

/// What the writer of messages returned.
pub fn written(returned: u64) -> String {
    match returned.checked_sub(REFUSED) {
        None => format!("the length {returned}"),
        Some(number) => format!("2^32 + {number}"),
    }
}

/// Where two readings of a message differ: the subject's first.
pub fn readings(subject: &Reading, expected: &Reading) -> String {
    let mut lines = vec![];
    if subject.number != expected.number {
        lines.push(format!("number: subject {}, expected {}", subject.number, expected.number));
    }
    if subject.lists != expected.lists {
        lines.push(format!("subject {}", conf_state(&subject.lists)));
        lines.push(format!("expected {}", conf_state(&expected.lists)));
    }
    lines.join("\n")
}

/// Where two replies differ: the subject's first.
pub fn differences(subject: &Reply, expected: &Reply) -> String {
    let (one, two) = (parts(subject), parts(expected));
    let differing = one.iter().zip(&two).filter(|(one, two)| one.1 != two.1);
    let lines: Vec<String> = differing.map(|(one, two)| format!("{}: subject {}, expected {}", one.0, one.1, two.1)).collect();
    lines.join("\n")
}

/// Every part of a reply, with its name.
fn parts(reply: &Reply) -> Vec<(String, String)> {
    let mut parts = vec![
        ("number".to_string(), format!("{} id {}", reply.number, reply.id)),
        ("yes or no".to_string(), reply.yes.to_string()),
    ];
    for (name, set) in ["incoming", "outgoing", "learners", "staged"].iter().zip(reply.state.conf.sets()) {
        parts.push((name.to_string(), ids(set)));
    }
    parts.push(("auto_leave".to_string(), reply.state.conf.auto_leave.to_string()));
    parts.push(("tracked".to_string(), ids(&reply.state.tracked)));
    for (place, record) in reply.state.records.iter().enumerate() {
        parts.push((format!("record at place {place}"), format!("{record:?}")));
    }
    parts.push(("max_inflight".to_string(), reply.state.max_inflight.to_string()));
    parts.push(("log".to_string(), log(&reply.log)));
    parts.push(("lists".to_string(), conf_state(&reply.conf_state)));
    parts.push(("idle entries".to_string(), reply.idle.to_string()));
    parts
}

/// A script, a record to a line.
pub fn script(bytes: &[u8]) -> String {
    let names = ["add", "remove", "learner", "simple, next", "enter, next", "enter-auto, next", "leave, next"];
    let mut text = format!("script of {} bytes:", bytes.len());
    for record in bytes.chunks(RECORD).take(40) {
        match <[u8; RECORD]>::try_from(record) {
            Ok([kind, number @ ..]) => {
                let name = names.get(kind as usize).map_or(format!("kind {kind},"), |name| name.to_string());
                write!(text, " {name} {};", u64::from_le_bytes(number)).expect("a string");
            }
            Err(_) => write!(text, " short record {record:?}").expect("a string"),
        }
    }
    if bytes.len() > 40 * RECORD {
        text.push_str(" ..");
    }
    text
}

/// The first line where two listings differ.
pub fn listings(subject: &[u8], expected: &[u8]) -> String {
    let (mut one, mut two) = (lines(subject), lines(expected));
    for number in 1.. {
        match (one.next(), two.next()) {
            (None, None) => break,
            (subject, expected) if subject == expected => {}
            (subject, expected) => {
                let shown = |line: Option<&[u8]>| line.map_or("nothing".to_string(), listing);
                return format!("line {number}: subject {}, expected {}", shown(subject), shown(expected));
            }
        }
    }
    "the same lines".to_string()
}

fn lines(text: &[u8]) -> impl Iterator<Item = &[u8]> {
    text.split_inclusive(|&byte| byte == b'\n')
}

/// The beginning of a listing.
pub fn listing(bytes: &[u8]) -> String {
    format!("{:?}", String::from_utf8_lossy(&bytes[..bytes.len().min(400)]))
}
