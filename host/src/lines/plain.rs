//! Two messages compared in plain Rust, for its speed: what the bench sets beside the proved code. It answers as lines.rs does,
//! and a group holds it against that. Each message becomes its ids with the sets that they are in, sorted, each id once; the two
//! are then merged.

use super::{LONGEST_FILE, LONG_FILE, NO_ROOM_FOR_LINES};
use crate::message::{plain, REFUSED};
use crate::words::{Block, ConfState};

/// The sets that an id is in: a bit for each, from the first name on.
type Sets = u8;

const VOTERS: Sets = 1;
const VOTERS_OUTGOING: Sets = 2;
const LEARNERS: Sets = 4;
const LEARNERS_NEXT: Sets = 8;

/// What is said of each.
const NAMED: [&str; 16] = [
    "none",
    "voters",
    "voters_outgoing",
    "voters+voters_outgoing",
    "learners",
    "voters+learners",
    "voters_outgoing+learners",
    "voters+voters_outgoing+learners",
    "learners_next",
    "voters+learners_next",
    "voters_outgoing+learners_next",
    "voters+voters_outgoing+learners_next",
    "learners+learners_next",
    "voters+learners+learners_next",
    "voters_outgoing+learners+learners_next",
    "voters+voters_outgoing+learners+learners_next",
];

/// Writes the lines to the front of `out`: their length, or 2^32 and the number of a refusal, and then `out` is as it was.
pub fn compare(first: &[u8], second: &[u8], out: &mut [u8]) -> u64 {
    if first.len() > LONGEST_FILE || second.len() > LONGEST_FILE {
        return REFUSED + LONG_FILE;
    }
    let (mut one, mut other) = (ConfState::zero(), ConfState::zero());
    for (bytes, lists) in [(first, &mut one), (second, &mut other)] {
        let number = plain::read(bytes, lists);
        if number != 0 {
            return REFUSED + number;
        }
    }
    let differing = differing(&members(&one), &members(&other));
    let flag = match (one.auto_leave, other.auto_leave) {
        (0, 1) => "auto_leave false -> true\n",
        (1, 0) => "auto_leave true -> false\n",
        _ => "",
    };
    let length = differing.iter().map(Differing::length).sum::<usize>() + flag.len();
    let Some(out) = out.get_mut(..length) else { return NO_ROOM_FOR_LINES };
    let mut at = 0;
    for line in &differing {
        at = line.put(out, at);
    }
    put(flag, out, at);
    length as u64
}

/// Every id of a message with its sets, ids ascending.
fn members(lists: &ConfState) -> Vec<(u64, Sets)> {
    let named = [
        (&lists.voters, VOTERS),
        (&lists.voters_outgoing, VOTERS_OUTGOING),
        (&lists.learners, LEARNERS),
        (&lists.learners_next, LEARNERS_NEXT),
    ];
    let mut members = Vec::with_capacity(named.iter().map(|(list, _)| list.used().len()).sum());
    for (list, set) in named {
        members.extend(list.used().iter().map(|&id| (id, set)));
    }
    members.sort_unstable();
    members.dedup_by(|next, kept| {
        let same = next.0 == kept.0;
        if same {
            kept.1 |= next.1;
        }
        same
    });
    members
}

/// An id that stands otherwise in the second message.
struct Differing {
    id: u64,
    left: Sets,
    right: Sets,
}

fn differing(mut first: &[(u64, Sets)], mut second: &[(u64, Sets)]) -> Vec<Differing> {
    let mut differing = Vec::with_capacity(first.len() + second.len());
    loop {
        let id = match (first, second) {
            ([], []) => return differing,
            ([one, ..], []) => one.0,
            ([], [other, ..]) => other.0,
            ([one, ..], [other, ..]) => one.0.min(other.0),
        };
        let (left, right) = (take(&mut first, id), take(&mut second, id));
        if left != right {
            differing.push(Differing { id, left, right });
        }
    }
}

/// The sets of an id, which is taken from the front if it is there.
fn take(members: &mut &[(u64, Sets)], id: u64) -> Sets {
    match **members {
        [(front, sets), ref rest @ ..] if front == id => {
            *members = rest;
            sets
        }
        _ => 0,
    }
}

impl Differing {
    fn length(&self) -> usize {
        let [left, right] = self.named();
        digits(self.id) + 1 + left.len() + 4 + right.len() + 1
    }

    fn named(&self) -> [&'static str; 2] {
        [self.left, self.right].map(|sets| NAMED[sets as usize])
    }

    /// Puts the line at a place: the place behind it.
    fn put(&self, out: &mut [u8], at: usize) -> usize {
        let [left, right] = self.named();
        let mut at = put_decimal(self.id, out, at);
        for text in [" ", left, " -> ", right, "\n"] {
            at = put(text, out, at);
        }
        at
    }
}

fn put(text: &str, out: &mut [u8], at: usize) -> usize {
    let behind = at + text.len();
    out[at..behind].copy_from_slice(text.as_bytes());
    behind
}

fn digits(number: u64) -> usize {
    number.checked_ilog10().map_or(1, |log| log as usize + 1)
}

/// Two digits at a time, the last ones first.
fn put_decimal(mut number: u64, out: &mut [u8], at: usize) -> usize {
    let behind = at + digits(number);
    let mut places = out[at..behind].rchunks_exact_mut(2);
    for two in &mut places {
        two.copy_from_slice(&TWO_DIGITS[(number % 100) as usize]);
        number /= 100;
    }
    if let [one] = places.into_remainder() {
        *one = b'0' + number as u8;
    }
    behind
}

/// 00 to 99.
const TWO_DIGITS: [[u8; 2]; 100] = {
    let mut all = [[b'0'; 2]; 100];
    let mut number = 0;
    while number < 100 {
        all[number] = [b'0' + (number / 10) as u8, b'0' + (number % 10) as u8];
        number += 1;
    }
    all
};
