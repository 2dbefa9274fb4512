//! What is written: every list in every buffer that matters, and what the writer refuses.

use super::{other, refused_untouched};
use crate::compare::{Compared, Comparison};
use crate::groups::Size;
use crate::message::{varint, LONGEST_MESSAGE, REFUSED};
use crate::random::Random;
use crate::words::{Block, ConfState, Ids, CAPACITY, CONF_STATE_WORDS};

// ** Lists that are written

/// Random lists, mostly short ones. Half of them have numbers in the places after their counts.
pub fn random(comparison: &mut Comparison, random: &mut Random, size: Size) -> Compared {
    for _ in 0..size.pick(300, 15_000, 400_000) {
        comparison.lists(&some_lists(random))?;
    }
    Ok(())
}

pub fn some_lists(random: &mut Random) -> ConfState {
    let mut lists = ConfState::zero();
    if random.one_in(2) {
        lists.words_mut().iter_mut().for_each(|word| *word = random.number());
    }
    for list in lists.lists_mut() {
        let count = match random.below(4) {
            0 => 0,
            1 => random.pick(&[1, 63, 64]),
            2 => random.between(1, 6),
            _ => random.between(0, CAPACITY),
        };
        list.ids[..count].iter_mut().for_each(|id| *id = random.number());
        list.count = count as u64;
    }
    lists.auto_leave = random.flag();
    lists
}

/// Ids on both sides of each length of a varint, payloads on both sides of a length of two bytes, every count of one list, all four full.
pub fn sizes(comparison: &mut Comparison, _: &mut Random, _: Size) -> Compared {
    let edges: Vec<u64> = (0..64).flat_map(|bit| [(1 << bit) - 1, 1 << bit]).chain([u64::MAX]).collect();
    for place in 0..4 {
        for &id in &edges {
            comparison.lists(&one_list(place, &[id], 0))?;
            comparison.lists(&one_list(place, &[1, id, id], 1))?;
        }
        for count in 0..=CAPACITY {
            for id in [1, 127, 128, 1 << 14, u64::MAX] {
                comparison.lists(&one_list(place, &vec![id; count], 0))?;
            }
        }
    }
    for (id, flag) in [(1, 0), (1 << 63, 1), (u64::MAX, 1)] {
        let mut full = ConfState::zero();
        full.lists_mut().into_iter().for_each(|list| *list = Ids::of(&[id; CAPACITY]));
        full.auto_leave = flag;
        comparison.lists(&full)?;
    }
    Ok(())
}

fn one_list(place: usize, ids: &[u64], flag: u64) -> ConfState {
    let mut lists = ConfState::zero();
    *lists.lists_mut()[place] = Ids::of(ids);
    lists.auto_leave = flag;
    lists
}

// ** What is refused

/// "1: conf_state has not exactly 261 words, or its flag is over 1; then 2: a count over 64; then 31".
pub fn edges(comparison: &mut Comparison, random: &mut Random, _: Size) -> Compared {
    lengths(comparison)?;
    flags_and_counts(comparison, random)?;
    every_room(comparison, random)
}

/// Other lengths than that of a CONFSTATE, whatever the words and the buffer.
fn lengths(comparison: &mut Comparison) -> Compared {
    for word in [0, 1, u64::MAX] {
        let words = [word; 300];
        for count in [0, 1, 65, CONF_STATE_WORDS - 1, CONF_STATE_WORDS + 1, 300] {
            for room in [0, 1, LONGEST_MESSAGE] {
                returns(comparison, REFUSED + 1, &words[..count], room)?;
            }
        }
    }
    Ok(())
}

/// Each flag that is none, each count that is too large, both at once; in every buffer of `Comparison::lists`.
fn flags_and_counts(comparison: &mut Comparison, random: &mut Random) -> Compared {
    for flag in [0, 1, 2, 3, 256, 1 << 32, (1 << 32) + 1, u64::MAX] {
        for count in [0, 63, 64, 65, 66, 256, 1 << 32, (1 << 32) + 1, 1 << 63, u64::MAX - 63, u64::MAX] {
            for place in 0..4 {
                let mut lists = some_lists(random);
                lists.lists_mut()[place].count = count;
                lists.auto_leave = flag;
                comparison.lists(&lists)?;
            }
        }
    }
    Ok(())
}

/// A message in every buffer up to its length and some bytes more.
fn every_room(comparison: &mut Comparison, random: &mut Random) -> Compared {
    let mut lists = ConfState::zero();
    for (place, list) in lists.lists_mut().into_iter().enumerate() {
        let ids: Vec<u64> = (0..3 * place).map(|_| random.number()).collect();
        *list = Ids::of(&ids);
    }
    lists.auto_leave = 1;
    let payloads = lists.lists().map(|list| list.used().iter().map(|&id| varint(id).len()).sum::<usize>());
    let length = payloads.iter().filter(|&&payload| payload > 0).map(|payload| 1 + varint(*payload as u64).len() + payload);
    let length = length.sum::<usize>() + 2;
    for room in 0..length {
        returns(comparison, REFUSED + 31, lists.words(), room)?;
    }
    comparison.lists(&lists)
}

/// What the writer has to refuse with, with every lent byte as it was.
fn returns(comparison: &mut Comparison, expected: u64, words: &[u64], room: usize) -> Compared {
    comparison.inputs += 1;
    let before: Vec<u8> = (0..room).map(|place| (place as u8).wrapping_mul(29) | 1).collect();
    let differs = |comparison: &mut Comparison| {
        let mut lent = before.clone();
        let returned = comparison.subject.write_conf_state(words, &mut lent);
        refused_untouched(returned, expected, &lent, &before)
    };
    match comparison.each_side(differs) {
        None => Ok(()),
        Some(difference) => Err(other(format!("{} words to be written to {room} bytes", words.len()), difference)),
    }
}
