//! Bytes to be read as a message: small ones, good ones, cut and damaged ones, random ones, and those at the edges of varints, lengths,
//! field numbers and lists.

use crate::compare::Compared;
use crate::groups::Size;
use crate::message::{delimited, packed, padded, single, tag, varint};
use crate::random::Random;
use crate::words::CAPACITY;

/// What is done with each.
pub type Each<'a> = &'a mut dyn FnMut(&[u8]) -> Compared;

/// One of the functions here: hands on many messages.
pub type Source = fn(&mut Random, Size, Each) -> Compared;

pub const ALL: [Source; 9] = [short, prefixes, damaged, random_bytes, random_fields, varints, lengths, numbers, long_lists];

// ** Every small one

/// Every byte string of up to two bytes; of a long run, of up to three.
pub fn short(_: &mut Random, size: Size, each: Each) -> Compared {
    for length in 0..=size.pick(2, 2, 3) {
        for choice in 0..1u32 << (8 * length) {
            each(&choice.to_be_bytes()[4 - length..])?;
        }
    }
    Ok(())
}

// ** Good ones, and what becomes of them

/// How many ids each list of a message can still take.
type Left = [usize; 4];

/// A message without a fault: fields of every kind in any order, packed and single, shortest varints and padded ones.
pub fn good(random: &mut Random) -> Vec<u8> {
    let mut left = [CAPACITY; 4];
    let fields = random.between(0, 8);
    (0..fields).flat_map(|_| good_field(random, &mut left)).collect()
}

fn good_field(random: &mut Random, left: &mut Left) -> Vec<u8> {
    let list = random.below(4);
    let field = list as u64 + 1;
    match random.below(8) {
        0..=2 => {
            let wanted = if random.one_in(20) { CAPACITY } else { random.below(6) };
            let count = wanted.min(left[list]);
            left[list] -= count;
            good_packed(random, field, count)
        }
        3..=4 if left[list] > 0 => {
            left[list] -= 1;
            [good_tag(random, field, 0), good_varint(random)].concat()
        }
        5 => [good_tag(random, 5, 0), flag(random)].concat(),
        _ => unknown(random),
    }
}

fn good_packed(random: &mut Random, field: u64, count: usize) -> Vec<u8> {
    let payload: Vec<u8> = (0..count).flat_map(|_| good_varint(random)).collect();
    [good_tag(random, field, 2), loose(random, payload.len() as u64), payload].concat()
}

fn good_tag(random: &mut Random, field: u64, wire_type: u64) -> Vec<u8> {
    loose(random, field << 3 | wire_type)
}

fn good_varint(random: &mut Random) -> Vec<u8> {
    let number = random.number();
    loose(random, number)
}

/// A varint of a number, mostly the shortest one, else one of up to ten bytes.
fn loose(random: &mut Random, number: u64) -> Vec<u8> {
    let shortest = varint(number);
    if random.one_in(8) {
        return padded(number, random.between(shortest.len(), 10));
    }
    shortest
}

fn flag(random: &mut Random) -> Vec<u8> {
    match random.below(4) {
        0 => good_varint(random),
        _ => {
            let flag = random.flag();
            loose(random, flag)
        }
    }
}

/// A field that is to be skipped.
pub fn unknown(random: &mut Random) -> Vec<u8> {
    const FIELDS: [u64; 8] = [6, 7, 15, 16, 2_047, 2_048, (1 << 29) - 2, (1 << 29) - 1];
    let field = if random.one_in(4) { 6 + random.next() % ((1 << 29) - 6) } else { random.pick(&FIELDS) };
    let wire_type = random.pick(&[0, 1, 2, 5]);
    [good_tag(random, field, wire_type), content(random, wire_type)].concat()
}

/// What a wire type says is behind its tag.
fn content(random: &mut Random, wire_type: u64) -> Vec<u8> {
    match wire_type {
        0 => good_varint(random),
        1 => some_bytes(random, 8),
        5 => some_bytes(random, 4),
        2 => {
            let count = random.below(12);
            [loose(random, count as u64), some_bytes(random, count)].concat()
        }
        _ => vec![],
    }
}

/// Bytes of every kind: small ones, tags, those that go on, and any.
fn some_bytes(random: &mut Random, count: usize) -> Vec<u8> {
    const TAGS: [u8; 12] = [0x08, 0x0a, 0x10, 0x12, 0x18, 0x1a, 0x20, 0x22, 0x28, 0x30, 0x32, 0x31];
    let mut byte = || match random.below(5) {
        0 => random.below(4) as u8,
        1 => random.pick(&TAGS),
        2 => random.pick(&[0x80, 0x81, 0xff]),
        3 => random.below(13) as u8,
        _ => random.next() as u8,
    };
    (0..count).map(|_| byte()).collect()
}

pub fn prefixes(random: &mut Random, size: Size, each: Each) -> Compared {
    for _ in 0..size.pick(40, 500, 20_000) {
        let message = good(random);
        for length in 0..=message.len() {
            each(&message[..length])?;
        }
    }
    Ok(())
}

/// A bit flipped, a byte changed, put in or taken out, up to three times.
pub fn damaged(random: &mut Random, size: Size, each: Each) -> Compared {
    for _ in 0..size.pick(2_000, 80_000, 2_000_000) {
        let mut message = good(random);
        for _ in 0..random.between(1, 3) {
            damage(random, &mut message);
        }
        each(&message)?;
    }
    Ok(())
}

pub fn damage(random: &mut Random, message: &mut Vec<u8>) {
    let byte = some_bytes(random, 1)[0];
    if message.is_empty() {
        return message.push(byte);
    }
    let place = random.below(message.len());
    match random.below(4) {
        0 => message[place] ^= 1 << random.below(8),
        1 => message[place] = byte,
        2 => message.insert(place, byte),
        _ => drop(message.remove(place)),
    }
}

// ** Random ones

pub fn random_bytes(random: &mut Random, size: Size, each: Each) -> Compared {
    for _ in 0..size.pick(2_000, 80_000, 2_000_000) {
        let length = random.below(30);
        let bytes = some_bytes(random, length);
        each(&bytes)?;
    }
    Ok(())
}

pub fn random_fields(random: &mut Random, size: Size, each: Each) -> Compared {
    for _ in 0..size.pick(4_000, 150_000, 4_000_000) {
        each(&some_message(random))?;
    }
    Ok(())
}

pub fn some_message(random: &mut Random) -> Vec<u8> {
    let mut left = [CAPACITY; 4];
    let fields = random.between(1, 7);
    (0..fields).flat_map(|_| some_field(random, &mut left)).collect()
}

/// Mostly a good field; else one that may have faults, several of them at once.
fn some_field(random: &mut Random, left: &mut Left) -> Vec<u8> {
    let field = random.between(1, 4) as u64;
    match random.below(24) {
        0 => [tag(field, 0), strange_varint(random)].concat(),
        1 => [tag(5, 0), strange_varint(random)].concat(),
        2..=3 => strange_packed(random, field),
        4 => {
            let field = random.pick(&FIELDS);
            under_any_type(random, &tag(field, 0))
        }
        5 => {
            let tag = strange_varint(random);
            under_any_type(random, &tag)
        }
        6 => {
            let count = random.between(0, 10);
            [tag(field, 2), strange_length(random), some_bytes(random, count)].concat()
        }
        7 => under_any_type(random, &tag(field, 0)),
        8 => under_any_type(random, &tag(5, 0)),
        9 => packed(field, &vec![random.number(); random.between(60, 70)]),
        _ => good_field(random, left),
    }
}

/// The field of a tag under any wire type, with what is then behind it; sometimes cut.
fn under_any_type(random: &mut Random, tag: &[u8]) -> Vec<u8> {
    let wire_type = random.below(8);
    let mut field = [tag, &content(random, wire_type as u64)].concat();
    field[0] = field[0] & !7 | wire_type as u8;
    if random.one_in(3) {
        field.truncate(field.len() - random.below(3).min(field.len()));
    }
    field
}

/// Up to 13 bytes, which may be too many, or go on at the end; the tenth, where there is one, is often near 1.
fn strange_varint(random: &mut Random) -> Vec<u8> {
    let length = random.pick(&[1, 2, 5, 8, 9, 10, 10, 10, 11, 12, 13]);
    let mut bytes: Vec<u8> = (0..length).map(|_| 0x80 | random.next() as u8).collect();
    if let Some(tenth) = bytes.get_mut(9) {
        *tenth = 0x80 | random.pick(&[0, 0, 1, 1, 2, 3, 127]);
    }
    if !random.one_in(6) {
        bytes[length - 1] &= 0x7f;
    }
    bytes
}

/// A packed field of numbers that may be none, sometimes as many as a list takes or more.
fn strange_packed(random: &mut Random, field: u64) -> Vec<u8> {
    let count = if random.one_in(4) { random.between(62, 66) } else { random.between(1, 5) };
    let strange = random.pick(&[2, 4, 8, 100]);
    let number = |random: &mut Random| if random.one_in(strange) { strange_varint(random) } else { good_varint(random) };
    let payload: Vec<u8> = (0..count).flat_map(|_| number(random)).collect();
    delimited(field, &payload)
}

fn strange_length(random: &mut Random) -> Vec<u8> {
    match random.below(3) {
        0 => strange_varint(random),
        1 => varint(random.between(0, 20) as u64),
        _ => varint(random.pick(&LENGTHS).wrapping_add(random.below(40) as u64)),
    }
}

// ** Edges

/// What may follow a field: nothing, a good one, one with each fault that can come at once.
const FOLLOWERS: [&[u8]; 5] = [&[], &[0x08, 0x05], &[0x0b], &[0x10], &[0x80]];

/// Varints of 1 to 13 bytes, with each last byte that matters, also one that goes on, as every part of a message.
pub fn varints(_: &mut Random, size: Size, each: Each) -> Compared {
    let lasts = [0, 1, 2, 3, 0x7f, 0x80, 0x81, 0xff];
    for length in 1..=13 {
        for (body, last) in [0x80, 0x81, 0xff].into_iter().flat_map(|body| lasts.map(|last| (body, last))) {
            let mut bytes = vec![body; length];
            bytes[length - 1] = last;
            let followers = &FOLLOWERS[..size.pick(2, 5, 5)];
            for message in as_every_part(&bytes) {
                for follower in followers {
                    each(&[&message[..], follower].concat())?;
                }
            }
        }
    }
    Ok(())
}

/// Messages that have these bytes in the place of a varint: a tag, a number, a flag, a length, of fields of every kind.
fn as_every_part(bytes: &[u8]) -> Vec<Vec<u8>> {
    let tags = [tag(1, 0), tag(5, 0), tag(6, 0), tag(0, 0), tag(1 << 29, 0), tag(1, 2), tag(5, 2), tag(6, 2), tag(0, 2)];
    let behind = tags.map(|tag| [&tag[..], bytes].concat());
    let with_content = behind.clone().map(|front| [&front[..], &[1, 2, 3]].concat());
    let first = [0x08, 0x0a, 0x28, 0x30, 0x32, 0x00].map(|tag: u8| {
        let mut bytes = bytes.to_vec();
        bytes[0] = bytes[0] & 0x80 | tag;
        [&bytes[..], &[1, 1]].concat()
    });
    let in_packed = [[&[][..], &[]], [&[5], &[]], [&[5], &[6]], [&[], &[0x80]], [&[5], &[0xff, 0xff]]].map(|[before, after]| {
        let payload = [before, bytes, after].concat();
        delimited(2, &payload)
    });
    [behind.to_vec(), with_content.to_vec(), first.to_vec(), in_packed.to_vec(), vec![bytes.to_vec()]].concat()
}

/// Near these a length begins to be taken for another one, where it is kept in fewer bits or where its sum with a place wraps.
const LENGTHS: [u64; 8] = [1 << 7, 1 << 14, 1 << 16, 1 << 31, 1 << 32, 1 << 62, 1 << 63, 0];

/// Lengths from 40 below each of these to 12 above, behind every kind of tag, at several places of a message.
pub fn lengths(_: &mut Random, size: Size, each: Each) -> Compared {
    let tags = [tag(1, 2), tag(4, 2), tag(5, 2), tag(6, 2), tag(0, 2), tag(1 << 29, 2)];
    for near in LENGTHS {
        for off in (0..=52).step_by(size.pick(4, 1, 1)) {
            let length = varint(near.wrapping_sub(40).wrapping_add(off));
            for tag in &tags {
                for before in [&[][..], &[0x08, 0x05], &[0x32, 0x03, 0x80, 0x80, 0x80]] {
                    let content = vec![0x30; if off % 3 == 0 { 200 } else { off as usize % 7 }];
                    each(&[before, tag, &length, &content].concat())?;
                }
            }
        }
    }
    Ok(())
}

/// Field numbers that are known, at both ends of what may be one, and those that are another where they are kept in fewer bits.
const FIELDS: [u64; 26] = [
    0,
    1,
    2,
    3,
    4,
    5,
    6,
    15,
    16,
    (1 << 29) - 2,
    (1 << 29) - 1,
    1 << 29,
    (1 << 29) + 1,
    (1 << 29) + 4,
    (1 << 29) + 5,
    (1 << 29) + 6,
    1 << 32,
    (1 << 32) + 1,
    (1 << 60) - 1,
    1 << 60,
    (1 << 60) + 1,
    (1 << 61) - (1 << 29),
    (1 << 61) - (1 << 29) + 1,
    (1 << 61) - 5,
    (1 << 61) - 2,
    (1 << 61) - 1,
];

/// Each of these under each wire type, cut at every length, and with each follower.
pub fn numbers(random: &mut Random, size: Size, each: Each) -> Compared {
    for field in FIELDS {
        for wire_type in 0..8 {
            for _ in 0..size.pick(1, 3, 20) {
                let whole = [tag(field, wire_type), content(random, wire_type)].concat();
                for length in 1..whole.len() {
                    each(&whole[..length])?;
                }
                for follower in FOLLOWERS {
                    each(&[&whole[..], follower].concat())?;
                }
            }
        }
    }
    Ok(())
}

/// Lists of 62 to 67 in every form, with ids of one byte and of ten; alone, with a fault behind the last number or in the field after it.
pub fn long_lists(random: &mut Random, size: Size, each: Each) -> Compared {
    for list in 1..=4 {
        for count in 62..=67 {
            for first in [1, u64::MAX - 70] {
                let ids: Vec<u64> = (first..first + count).collect();
                for (form, packed_last) in in_every_form(random, list, &ids) {
                    for follower in FOLLOWERS {
                        each(&[&form[..], follower].concat())?;
                    }
                    for fault in FAULTS.iter().filter(|_| packed_last).take(size.pick(2, 4, 4)) {
                        each(&with_fault(list, &ids, fault))?;
                    }
                }
            }
        }
    }
    Ok(())
}

/// No number: of eleven bytes, over 64 bits, cut, and the first and the third.
const FAULTS: [&[u8]; 4] = [
    &[0x80, 0x80, 0x80, 0x80, 0x80, 0x80, 0x80, 0x80, 0x80, 0x80, 0x00],
    &[0xff, 0xff, 0xff, 0xff, 0xff, 0xff, 0xff, 0xff, 0xff, 0x02],
    &[0x80],
    &[0x80, 0x80, 0x80, 0x80, 0x80, 0x80, 0x80, 0x80, 0x80, 0x80, 0x00, 0x80],
];

/// All ids packed, and the fault behind them in the same field.
fn with_fault(list: u64, ids: &[u64], fault: &[u8]) -> Vec<u8> {
    let numbers = ids.iter().flat_map(|&id| varint(id));
    delimited(list, &numbers.chain(fault.iter().copied()).collect::<Vec<_>>())
}

/// The ids of a list: packed, single, in two fields, in many, with another list's between; and whether all are in one field.
fn in_every_form(random: &mut Random, list: u64, ids: &[u64]) -> Vec<(Vec<u8>, bool)> {
    let singly = |ids: &[u64]| ids.iter().flat_map(|&id| single(list, id)).collect::<Vec<u8>>();
    let (front, back) = ids.split_at(random.between(1, ids.len() - 1));
    let (most, last) = ids.split_at(ids.len() - 1);
    let elsewhere = packed(list % 4 + 1, &[9; 60]);
    let many = ids.chunks(7).flat_map(|ids| packed(list, ids)).collect();
    vec![
        (packed(list, ids), true),
        (singly(ids), false),
        ([packed(list, front), packed(list, back)].concat(), false),
        ([packed(list, front), singly(back)].concat(), false),
        ([singly(front), packed(list, back)].concat(), false),
        ([packed(list, most), singly(last)].concat(), false),
        ([packed(list, front), elsewhere, single(5, 1), packed(list, back)].concat(), false),
        ([packed(list, ids), packed(list, &[])].concat(), false),
        (many, false),
    ]
}
