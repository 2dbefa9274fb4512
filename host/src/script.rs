//! The replay script and its listing: document 01, "The replay script". One reader and printer for the model and for the Rust; what
//! a list does is asked of a `Machine`.

use crate::model::{Conf, Entry};
use crate::words::{Change, LONGEST_LIST};

pub const LONGEST_SCRIPT: usize = 65_536;

/// "the listing's length .. or 2^32 plus 19 or 20"
pub const TOO_LONG: u64 = (1 << 32) + 19;
pub const NO_ROOM: u64 = (1 << 32) + 20;

/// "Records are one byte of kind and an 8-byte little-endian number."
pub const RECORD: usize = 9;

/// "Kinds 0, 1, 2 add a change to the pending list. Kinds 3 (simple), 4 (enter), 5 (enter with auto leave), 6 (leave) run it".
pub const SIMPLE: u8 = 3;
pub const ENTER: u8 = 4;
pub const ENTER_AUTO: u8 = 5;
pub const LEAVE: u8 = 6;

#[derive(Clone, Copy, PartialEq, Eq)]
pub enum Run {
    Simple,
    Enter { auto_leave: bool },
    Leave,
}

/// What one run gives, to be printed.
pub enum Line {
    Accepted { incoming: Vec<u64>, outgoing: Vec<u64>, learners: Vec<u64>, staged: Vec<u64>, auto_leave: bool, log: Vec<Entry> },
    Refused { number: u64, id: u64 },
}

impl Line {
    pub fn of(conf: &Conf, log: &[Entry]) -> Line {
        let list = |set: &std::collections::BTreeSet<u64>| set.iter().copied().collect();
        Line::Accepted {
            incoming: list(&conf.incoming),
            outgoing: list(&conf.outgoing),
            learners: list(&conf.learners),
            staged: list(&conf.staged),
            auto_leave: conf.auto_leave,
            log: log.to_vec(),
        }
    }
}

/// The state that a script's runs change: an accepted answer is applied with `next_idx`.
pub trait Machine {
    fn run(&mut self, run: Run, list: &[Change], next_idx: u64) -> Line;
}

/// The listing of a script that is not too long.
pub fn listing(script: &[u8], machine: &mut dyn Machine) -> Vec<u8> {
    let (mut out, mut pending, mut lines, mut at) = (vec![], Vec::<Change>::new(), 0, 0);
    while let Some(record) = script.get(at..at + RECORD) {
        let number = u64::from_le_bytes(record[1..].try_into().expect("eight bytes"));
        let run = match record[0] {
            kind @ 0..=2 if pending.len() < LONGEST_LIST => {
                pending.push((number, u64::from(kind)));
                at += RECORD;
                continue;
            }
            SIMPLE => Run::Simple,
            ENTER => Run::Enter { auto_leave: false },
            ENTER_AUTO => Run::Enter { auto_leave: true },
            LEAVE if pending.is_empty() => Run::Leave,
            // "an unknown kind, .. a 257th pending change, or a leave with changes pending"
            _ => return stopped(out, at),
        };
        lines += 1;
        print(&mut out, lines, &machine.run(run, &pending, number));
        pending.clear();
        at += RECORD;
    }
    // "a short record"; "changes pending at the end give it with K the length"
    if at < script.len() {
        return stopped(out, at);
    }
    if pending.is_empty() {
        out
    } else {
        stopped(out, script.len())
    }
}

fn stopped(mut out: Vec<u8>, at: usize) -> Vec<u8> {
    out.extend_from_slice(b"stopped at byte ");
    decimal(&mut out, at as u64);
    out.push(b'\n');
    out
}

/// "the order is voters, learners, learners_next, autoleave, log"; "empty learners, staged and a false flag print nothing".
fn print(out: &mut Vec<u8>, count: u64, line: &Line) {
    decimal(out, count);
    match line {
        Line::Refused { number, id } => {
            out.extend_from_slice(b" refused ");
            decimal(out, *number);
            out.extend_from_slice(b" id ");
            decimal(out, *id);
        }
        Line::Accepted { incoming, outgoing, learners, staged, auto_leave, log } => {
            out.extend_from_slice(b" ok voters=");
            set(out, incoming);
            if !outgoing.is_empty() {
                out.extend_from_slice(b"&&");
                set(out, outgoing);
            }
            labelled(out, b" learners=", learners);
            labelled(out, b" learners_next=", staged);
            if *auto_leave {
                out.extend_from_slice(b" autoleave");
            }
            out.extend_from_slice(b" log=");
            spaced(out, log, entry);
        }
    }
    out.push(b'\n');
}

fn labelled(out: &mut Vec<u8>, label: &[u8], ids: &[u64]) {
    if !ids.is_empty() {
        out.extend_from_slice(label);
        set(out, ids);
    }
}

fn set(out: &mut Vec<u8>, ids: &[u64]) {
    spaced(out, ids, |out, id| decimal(out, *id));
}

fn entry(out: &mut Vec<u8>, entry: &Entry) {
    let (sign, id) = match *entry {
        Entry::Add(id) => (b'+', id),
        Entry::Remove(id) => (b'-', id),
    };
    out.push(sign);
    decimal(out, id);
}

fn spaced<T>(out: &mut Vec<u8>, items: &[T], print: impl Fn(&mut Vec<u8>, &T)) {
    out.push(b'(');
    for (place, item) in items.iter().enumerate() {
        if place > 0 {
            out.push(b' ');
        }
        print(out, item);
    }
    out.push(b')');
}

fn decimal(out: &mut Vec<u8>, mut number: u64) {
    let mut digits = [0; 20];
    let mut from = digits.len();
    loop {
        from -= 1;
        digits[from] = b'0' + (number % 10) as u8;
        number /= 10;
        if number == 0 {
            break;
        }
    }
    out.extend_from_slice(&digits[from..]);
}
