//! Pairs of messages: every small one, random ones that say nearly the same or nothing in common, full ones, damaged ones, and
//! those at the edges of lengths and digits.

use crate::compare::Compared;
use crate::generate;
use crate::groups::messages::{damage, some_message, unknown};
use crate::groups::Size;
use crate::lines::{Said, Standing, LONGEST_FILE};
use crate::message::{delimited, packed, single, tag, varint, written};
use crate::model::{Model, Set};
use crate::random::Random;
use crate::words::CAPACITY;

/// What is done with each.
pub type Each<'a> = &'a mut dyn FnMut(&[u8], &[u8]) -> Compared;

/// One of the functions here: hands on many pairs.
pub type Source = fn(&mut Random, Size, Each) -> Compared;

pub const ALL: [Source; 9] = [small, related, unrelated, full, damaged, digits, faults, slices, longest];

pub type Pair = [Vec<u8>; 2];

pub fn swapped([first, second]: Pair) -> Pair {
    [second, first]
}

// ** What a message says

/// The sixteen standings.
fn standings() -> impl Iterator<Item = Standing> {
    (0..16).map(numbered)
}

/// The sets that are the bits of a number.
fn numbered(number: usize) -> Standing {
    [0, 1, 2, 3].map(|set| number >> set & 1 == 1)
}

fn some_standing(random: &mut Random) -> Standing {
    match random.below(3) {
        0 => numbered(random.below(16)),
        _ => numbered(1 << random.below(4)),
    }
}

/// The one encoding of what is said.
pub fn plainly(said: &Said) -> Vec<u8> {
    written(&Model::PAPER, &said.lists())
}

/// What is said in any form: ids and fields in any order, ids more than once, packed and single, unknown fields between, and
/// flags before the last.
fn in_any_form(random: &mut Random, said: &Said) -> Vec<u8> {
    let mut fields = vec![];
    for (set, field) in said.sets.iter().zip([1, 3, 2, 4]) {
        let mut ids: Vec<u64> = set.iter().copied().collect();
        while !ids.is_empty() && ids.len() < CAPACITY && random.one_in(3) {
            ids.push(random.pick(&ids));
        }
        shuffle(random, &mut ids);
        in_pieces(random, field, &ids, &mut fields);
    }
    for _ in 0..random.below(3) {
        fields.push(unknown(random));
    }
    shuffle(random, &mut fields);
    let overruled = random.one_in(4);
    if said.auto_leave || overruled || random.one_in(4) {
        let last = if said.auto_leave { random.pick(&[1, 1, 2, 300]) } else { 0 };
        fields.insert(random.between(0, fields.len()), single(5, last));
    }
    if overruled {
        fields.insert(0, single(5, random.flag()));
    }
    fields.concat()
}

/// The fields of a list, each packed or single.
fn in_pieces(random: &mut Random, field: u64, ids: &[u64], fields: &mut Vec<Vec<u8>>) {
    let mut rest = ids;
    while !rest.is_empty() {
        let (piece, after) = rest.split_at(random.between(1, rest.len()));
        rest = after;
        match piece {
            [id] if random.one_in(2) => fields.push(single(field, *id)),
            _ => fields.push(packed(field, piece)),
        }
    }
}

fn shuffle<T>(random: &mut Random, items: &mut [T]) {
    for place in 1..items.len() {
        items.swap(place, random.below(place + 1));
    }
}

// ** Every small one

/// Every message over two ids, one of them 0: each in any of the four sets, with the flag and without.
fn over_two_ids() -> Vec<Vec<u8>> {
    let mut all = vec![];
    for auto_leave in [false, true] {
        for (zero, seven) in standings().flat_map(|zero| standings().map(move |seven| (zero, seven))) {
            let mut said = Said { auto_leave, ..Said::default() };
            said.stand(0, zero);
            said.stand(7, seven);
            all.push(plainly(&said));
        }
    }
    all
}

/// Each with itself and with each after it.
pub fn small(_: &mut Random, size: Size, each: Each) -> Compared {
    let messages = over_two_ids();
    for first in (0..messages.len()).step_by(size.pick(13, 1, 1)) {
        for second in messages[first..].iter().step_by(size.pick(7, 1, 1)) {
            each(&messages[first], second)?;
        }
    }
    Ok(())
}

// ** Random ones

/// A number of so many digits.
fn of_digits(random: &mut Random, digits: u32) -> u64 {
    let [least, largest] = ends(digits);
    match random.below(8) {
        0 => least,
        1 => largest,
        _ => least + random.next() % (largest - least),
    }
}

/// The least and the largest number of so many digits.
fn ends(digits: u32) -> [u64; 2] {
    let least = if digits == 1 { 0 } else { 10u64.pow(digits - 1) };
    [least, 10u64.checked_pow(digits).map_or(u64::MAX, |over| over - 1)]
}

const MOST_DIGITS: u32 = 20;

fn some_id(random: &mut Random) -> u64 {
    match random.below(3) {
        0 => random.below(10) as u64,
        _ => {
            let digits = random.between(1, MOST_DIGITS as usize) as u32;
            of_digits(random, digits)
        }
    }
}

fn some_said(random: &mut Random) -> Said {
    let mut said = Said { auto_leave: random.one_in(2), ..Said::default() };
    for _ in 0..generate::size(random) {
        let (id, standing) = (some_id(random), some_standing(random));
        said.stand(id, standing);
    }
    said
}

/// A few ids moved, put in or taken out.
fn moved(random: &mut Random, said: &Said) -> Said {
    let mut moved = said.clone();
    for _ in 0..random.below(5) {
        let ids: Vec<u64> = moved.ids().into_iter().collect();
        let id = if ids.is_empty() || random.one_in(4) { some_id(random) } else { random.pick(&ids) };
        let before = moved.clone();
        moved.stand(id, some_standing(random));
        if moved.sets.iter().any(|set| set.len() > CAPACITY) {
            moved = before;
        }
    }
    moved.auto_leave ^= random.one_in(4);
    moved
}

fn related_pair(random: &mut Random) -> Pair {
    let first = some_said(random);
    let second = moved(random, &first);
    [first, second].map(|said| in_any_form(random, &said))
}

/// One that has a line.
pub fn differing_pair(random: &mut Random) -> Pair {
    loop {
        let [first, second] = related_pair(random);
        if Said::by(&first) != Said::by(&second) {
            return [first, second];
        }
    }
}

/// Two messages of which the second says nearly what the first does.
pub fn related(random: &mut Random, size: Size, each: Each) -> Compared {
    for _ in 0..size.pick(1_000, 20_000, 400_000) {
        let [first, second] = related_pair(random);
        each(&first, &second)?;
    }
    Ok(())
}

/// Two messages that have nothing to do with each other.
pub fn unrelated(random: &mut Random, size: Size, each: Each) -> Compared {
    for _ in 0..size.pick(500, 10_000, 200_000) {
        let [first, second] = [some_said(random), some_said(random)].map(|said| in_any_form(random, &said));
        each(&first, &second)?;
    }
    Ok(())
}

/// Lists of 60 to 64 ids, mostly long ones; those of the second are some of the first's and others.
pub fn full(random: &mut Random, size: Size, each: Each) -> Compared {
    for _ in 0..size.pick(20, 500, 10_000) {
        let first = full_said(random, &[]);
        let known: Vec<u64> = first.ids().into_iter().collect();
        let second = if random.one_in(4) { moved(random, &first) } else { full_said(random, &known) };
        let [first, second] = [first, second].map(|said| in_any_form(random, &said));
        each(&first, &second)?;
    }
    Ok(())
}

fn full_said(random: &mut Random, known: &[u64]) -> Said {
    let mut said = Said { auto_leave: random.one_in(2), ..Said::default() };
    for set in &mut said.sets {
        let count = random.between(60, CAPACITY);
        while set.len() < count {
            let id = if known.is_empty() || random.one_in(2) {
                let digits = random.pick(&[3, 10, 18, 19, 20, 20]);
                of_digits(random, digits)
            } else {
                random.pick(known)
            };
            set.insert(id);
        }
    }
    said
}

/// One of the two or both damaged; or random fields, that may have faults.
pub fn damaged(random: &mut Random, size: Size, each: Each) -> Compared {
    for _ in 0..size.pick(1_000, 30_000, 600_000) {
        let [first, second] = damaged_pair(random);
        each(&first, &second)?;
    }
    Ok(())
}

fn damaged_pair(random: &mut Random) -> Pair {
    if random.one_in(4) {
        return [some_message(random), some_message(random)];
    }
    let mut pair = related_pair(random);
    let (which, both) = (random.below(2), random.one_in(3));
    for (place, message) in pair.iter_mut().enumerate() {
        if both || place == which {
            (0..random.between(1, 3)).for_each(|_| damage(random, message));
        }
    }
    pair
}

/// A pair that says nearly the same, or one with faults.
pub fn some_pair(random: &mut Random) -> Pair {
    match random.below(3) {
        0 => damaged_pair(random),
        _ => related_pair(random),
    }
}

// ** Edges

/// The least and the largest id of every number of digits, alone, with every two standings.
pub fn digits(_: &mut Random, size: Size, each: Each) -> Compared {
    let all: Vec<Standing> = standings().collect();
    for id in (1..=MOST_DIGITS).flat_map(ends) {
        for (place, first) in all.iter().enumerate().step_by(size.pick(5, 1, 1)) {
            for second in &all[place..] {
                let [first, second] = [first, second].map(|standing| {
                    let mut said = Said::default();
                    said.stand(id, *standing);
                    plainly(&said)
                });
                each(&first, &second)?;
            }
        }
    }
    Ok(())
}

/// Messages without a fault and with each, short ones.
fn good_and_faulty() -> Vec<Vec<u8>> {
    let long_list = packed(2, &[7; CAPACITY + 1]);
    let cut_behind = [&long_list[..], &[0x08]].concat();
    vec![
        vec![],
        single(1, 5),
        // cut: a tag, a number, a length, what has a length
        vec![0x80],
        vec![0x08],
        vec![0x0a],
        vec![0x0a, 0x02, 0x01],
        // over 64 bits, a group, field number 0, a flag under wire type 2
        [&[0x08][..], &[0xff; 9], &[0x02]].concat(),
        vec![0x0b],
        vec![0x00, 0x00],
        vec![0x2a, 0x00],
        long_list,
        // two faulty fields
        cut_behind,
        vec![0x0b, 0x08],
    ]
}

/// Every refusal of k) in the first, in the second and in both.
pub fn faults(_: &mut Random, _: Size, each: Each) -> Compared {
    let messages = good_and_faulty();
    for first in &messages {
        for second in &messages {
            each(first, second)?;
        }
    }
    Ok(())
}

/// A message stretched to so many bytes by an unknown field behind it.
pub fn stretched(message: &[u8], length: usize) -> Vec<u8> {
    let behind = length - message.len();
    // the field's tag has one byte, its length one to three
    let payload = (1..=3).map(|bytes| behind - 1 - bytes).find(|&payload| 1 + varint(payload as u64).len() + payload == behind);
    [message, &delimited(6, &vec![0; payload.expect("a length that a field can have")])].concat()
}

/// The same by many unknown fields of two bytes, one of three if need be.
fn stretched_by_many(message: &[u8], length: usize) -> Vec<u8> {
    let behind = length - message.len();
    let odd = if behind % 2 == 1 { &[0x30, 0x80, 0x00][..] } else { &[] };
    let even = [0x30, 0x01].repeat((behind - odd.len()) / 2);
    [message, odd, &even].concat()
}

/// One of so many bytes that is cut at its end.
pub fn cut_at_the_end(length: usize) -> Vec<u8> {
    let mut message = stretched(&single(1, 5), length + 1);
    message.truncate(length);
    message
}

/// Slices of up to 32 KiB and over, with faults and without; two such, and one beside a short message.
pub fn slices(_: &mut Random, size: Size, each: Each) -> Compared {
    let lengths = [LONGEST_FILE - 1, LONGEST_FILE, LONGEST_FILE + 1, LONGEST_FILE + 2, 2 * LONGEST_FILE];
    let mut messages = vec![];
    for length in &lengths[..size.pick(3, 5, 5)] {
        messages.push(stretched(&single(1, 5), *length));
        messages.push(stretched_by_many(&packed(3, &[5, 6]), *length));
        messages.push(cut_at_the_end(*length));
        messages.push(stretched(&[0x0b], *length));
        messages.push(stretched(&packed(2, &[7; CAPACITY + 1]), *length));
        messages.push([tag(1, 2), vec![0xff; *length - 1]].concat());
    }
    messages.extend([vec![], single(1, 5), vec![0x08], vec![0x0b], packed(2, &[7; CAPACITY + 1])]);
    for first in &messages {
        for second in &messages {
            each(first, second)?;
        }
    }
    Ok(())
}

/// So many ids for each set, from the first on, no two alike.
fn filled(first: u64, each_set: u64, auto_leave: bool) -> Said {
    let set = |number: u64| (0..each_set).map(|id| first + number * each_set + id).collect();
    Said { sets: [0, 1, 2, 3].map(set), auto_leave }
}

/// "64 ids of 20 digits in every list", of both messages, and the flag: the longest lines.
pub fn longest_pair() -> Pair {
    let [first, largest] = ends(MOST_DIGITS);
    let of_each = 4 * CAPACITY as u64;
    [filled(first, CAPACITY as u64, false), filled(largest - of_each + 1, CAPACITY as u64, true)].map(|said| plainly(&said))
}

/// Five voters, of which one is another in the second.
pub fn one_swapped() -> Pair {
    [[1, 2, 3, 4, 5], [1, 2, 3, 4, 6]].map(|ids| packed(1, &ids))
}

/// Full lists of long and short ids, and of the same ids in each, beside each other and beside nothing.
pub fn longest(random: &mut Random, size: Size, each: Each) -> Compared {
    let full = CAPACITY as u64;
    let mut all =
        vec![Said::default(), filled(0, full, true), filled(4 * full, full, false), filled(u64::MAX - 4 * full + 1, full, true)];
    for first in [0, 9_999_999_999_999_999_970, u64::MAX - full + 1] {
        let set: Set = (0..full).map(|id| first + id).collect();
        all.push(Said { sets: [(); 4].map(|()| set.clone()), auto_leave: false });
    }
    let [first, second] = longest_pair();
    each(&first, &second)?;
    for _ in 0..size.pick(1, 2, 10) {
        for (first, second) in all.iter().flat_map(|first| all.iter().map(move |second| (first, second))) {
            each(&plainly(first), &plainly(second))?;
            each(&in_any_form(random, first), &in_any_form(random, second))?;
        }
    }
    Ok(())
}
