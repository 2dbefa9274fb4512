//! A message decoded and encoded in plain Rust, for its speed: what the bench sets beside the proved code. It answers as the second reader
//! and writer do, and a group holds it against them.

use super::{CUT_SHORT, LONG_LIST, NO_FIELD, NO_ROOM_FOR_IT, REFUSED};
use crate::words::{Block, ConfState, Ids, CAPACITY};

type Decoded<T> = Result<T, u64>;

// ** Decoding

/// Reads a message into the lists: 0, or the number that refuses it, and then they are empty.
pub fn read(bytes: &[u8], lists: &mut ConfState) -> u64 {
    *lists = ConfState::zero();
    match message(bytes, lists) {
        Ok(()) => 0,
        Err(number) => {
            *lists = ConfState::zero();
            number
        }
    }
}

fn message(mut rest: &[u8], lists: &mut ConfState) -> Decoded<()> {
    while !rest.is_empty() {
        let tag = varint(&mut rest)?;
        let list = match tag >> 3 {
            1 => &mut lists.voters,
            2 => &mut lists.learners,
            3 => &mut lists.voters_outgoing,
            4 => &mut lists.learners_next,
            5 if tag & 7 == 0 => {
                lists.auto_leave = u64::from(varint(&mut rest)? != 0);
                continue;
            }
            field => {
                skip(tag & 7, &mut rest)?;
                if matches!(field, 6..0x2000_0000) {
                    continue;
                }
                return Err(NO_FIELD);
            }
        };
        match tag & 7 {
            0 => push(list, varint(&mut rest)?)?,
            2 => {
                let payload = delimited(&mut rest)?;
                packed(payload, list).map_err(|fault| fault_of(payload, fault))?;
            }
            wire_type => {
                skip(wire_type, &mut rest)?;
                return Err(NO_FIELD);
            }
        }
    }
    Ok(())
}

fn push(list: &mut Ids, id: u64) -> Decoded<()> {
    let place = list.ids.get_mut(list.count as usize).ok_or(LONG_LIST)?;
    *place = id;
    list.count += 1;
    Ok(())
}

fn packed(mut payload: &[u8], list: &mut Ids) -> Decoded<()> {
    let mut count = list.count as usize;
    while !payload.is_empty() {
        let id = varint(&mut payload)?;
        *list.ids.get_mut(count).ok_or(LONG_LIST)? = id;
        count += 1;
    }
    list.count = count as u64;
    Ok(())
}

/// The number of a packed field that was found to be faulty: a later fault in it may have a lower one.
#[cold]
fn fault_of(payload: &[u8], found: u64) -> u64 {
    if payload.last().is_some_and(|&last| last >= 0x80) {
        return CUT_SHORT;
    }
    let mut rest = payload;
    while !rest.is_empty() {
        if varint(&mut rest).is_err() {
            return NO_FIELD;
        }
    }
    found
}

/// The front of the bytes as a varint.
#[inline]
fn varint(rest: &mut &[u8]) -> Decoded<u64> {
    if let [byte @ ..0x80, ref after @ ..] = **rest {
        *rest = after;
        return Ok(u64::from(byte));
    }
    let (value, after) = long_varint(rest)?;
    *rest = after;
    Ok(value)
}

/// One that goes on after its first byte, and what is behind it. Where ten bytes are there, no place among them is looked for.
#[inline(never)]
fn long_varint(rest: &[u8]) -> Decoded<(u64, &[u8])> {
    let read = rest.first_chunk::<10>().map_or_else(|| groups(rest), |ten| groups(ten));
    let (value, length) = read.ok_or_else(|| endless(rest))?;
    let (bytes, after) = rest.split_at(length);
    match bytes.get(9) {
        Some(2..) => Err(NO_FIELD),
        _ => Ok((value, after)),
    }
}

/// The value of these bytes up to the first that ends a varint, and how many they are; none where none does.
#[inline(always)]
fn groups(bytes: &[u8]) -> Option<(u64, usize)> {
    let mut value = 0;
    for (place, &byte) in bytes.iter().enumerate() {
        value |= u64::from(byte & 0x7f) << (7 * place);
        if byte < 0x80 {
            return Some((value, place + 1));
        }
    }
    None
}

/// The fault of a varint that goes on after ten bytes, or after all that are there.
#[cold]
fn endless(rest: &[u8]) -> u64 {
    if rest.iter().any(|&byte| byte < 0x80) {
        NO_FIELD
    } else {
        CUT_SHORT
    }
}

fn delimited<'a>(rest: &mut &'a [u8]) -> Decoded<&'a [u8]> {
    let length = varint(rest)?;
    let length = usize::try_from(length).map_err(|_| CUT_SHORT)?;
    let (payload, after) = rest.split_at_checked(length).ok_or(CUT_SHORT)?;
    *rest = after;
    Ok(payload)
}

/// Passes over what a wire type says is behind its tag.
fn skip(wire_type: u64, rest: &mut &[u8]) -> Decoded<()> {
    let fixed = match wire_type {
        0 => return varint(rest).map(|_| ()),
        1 => 8,
        2 => return delimited(rest).map(|_| ()),
        5 => 4,
        _ => return Err(NO_FIELD),
    };
    *rest = rest.get(fixed..).ok_or(CUT_SHORT)?;
    Ok(())
}

// ** Encoding

/// Writes the one message of the lists to the front of the bytes: its length, or 2^32 and the number that refuses it.
pub fn write(lists: &ConfState, bytes: &mut [u8]) -> u64 {
    if lists.auto_leave > 1 {
        return REFUSED + 1;
    }
    if lists.lists().iter().any(|list| list.count > CAPACITY as u64) {
        return REFUSED + 2;
    }
    let payloads = lists.lists().map(|list| list.used().iter().map(|&id| length_of(id)).sum::<usize>());
    let framed = |&payload: &usize| if payload == 0 { 0 } else { 1 + length_of(payload as u64) + payload };
    let length = payloads.iter().map(framed).sum::<usize>() + 2 * lists.auto_leave as usize;
    let Some(message) = bytes.get_mut(..length) else { return NO_ROOM_FOR_IT };
    let mut at = 0;
    for ((list, payload), tag) in lists.lists().into_iter().zip(payloads).zip([0x0a, 0x12, 0x1a, 0x22]) {
        if payload > 0 {
            message[at] = tag;
            at = put(payload as u64, message, at + 1);
            for &id in list.used() {
                at = put(id, message, at);
            }
        }
    }
    if lists.auto_leave == 1 {
        message[at..].copy_from_slice(&[0x28, 0x01]);
    }
    length as u64
}

/// The bytes of a number's shortest varint: a seventh of its bits, rounded up, which for 1 to 64 bits is this without a division.
fn length_of(number: u64) -> usize {
    let bits = 64 - (number | 1).leading_zeros() as usize;
    (bits * 9 + 64) / 64
}

/// Puts a varint at a place: the place behind it.
#[inline]
fn put(mut number: u64, bytes: &mut [u8], mut at: usize) -> usize {
    while number >= 0x80 {
        bytes[at] = number as u8 | 0x80;
        number >>= 7;
        at += 1;
    }
    bytes[at] = number as u8;
    at + 1
}
