//! Makes an input that shows a difference smaller, as long as it shows one: shorter lists, fewer ids, smaller numbers, fewer bytes.

use crate::calls::removal;
use crate::compare::{Against, Comparison, Difference, Input, Room};
use crate::groups::{order, wrapper};
use crate::lines::Said;
use crate::message::{read, varint, written};
use crate::model::{Model, Set};
use crate::script::RECORD;
use crate::words::{Block, ConfState, Entry, Ids, List, Log, Record, Request, CAPACITY, LIST_PLACES, LOG_PLACES, REMOVE_NODE};
use std::collections::BTreeMap;

/// The smallest input found that differs from the same side, and how.
pub fn smallest(comparison: &mut Comparison, input: Input, against: Against) -> (Input, Option<Difference>) {
    let same = |difference: Option<Difference>| difference.filter(|found| found.against == against);
    match input {
        Input::Call(request) => {
            let small = call(*request, &mut |tried| same(comparison.call_difference(tried)).is_some());
            let difference = same(comparison.call_difference(&small));
            (Input::Call(small), difference)
        }
        Input::Wrapped(request) => {
            let small = call(*request, &mut |tried| same(wrapper::difference(comparison, tried)).is_some());
            let difference = same(wrapper::difference(comparison, &small));
            (Input::Wrapped(small), difference)
        }
        Input::State(request) => {
            let small = call(*request, &mut |tried| same(order::difference(comparison, tried)).is_some());
            let difference = same(order::difference(comparison, &small));
            (Input::State(small), difference)
        }
        Input::Unplug(state, id) => {
            let small = call(*removal(&state, id), &mut |tried| same(unplug_difference(comparison, tried)).is_some());
            let difference = same(unplug_difference(comparison, &small));
            (Input::Unplug(Box::new(small.state), small.list.ids[0]), difference)
        }
        Input::Script(bytes) => {
            let small = script(bytes, &mut |tried| same(comparison.script_difference(tried, &Room::ALL)).is_some());
            let difference = same(comparison.script_difference(&small, &Room::ALL));
            (Input::Script(small), difference)
        }
        Input::Message(bytes) => {
            let small = message(bytes, &mut |tried| same(comparison.message_difference(tried)).is_some());
            let difference = same(comparison.message_difference(&small));
            (Input::Message(small), difference)
        }
        Input::Lists(written) => {
            let small = lists(*written, &mut |tried| same(comparison.lists_difference(tried)).is_some());
            let difference = same(comparison.lists_difference(&small));
            (Input::Lists(small), difference)
        }
        Input::Pair(first, second) => {
            let [first, second] =
                pair([first, second], &mut |[first, second]| same(comparison.pair_difference(first, second)).is_some());
            let difference = same(comparison.pair_difference(&first, &second));
            (Input::Pair(first, second), difference)
        }
        other => (other, None),
    }
}

/// How `dimecandle_unplug` differs on a request's state and the id of its single removal; of another list, not at all.
fn unplug_difference(comparison: &mut Comparison, request: &Request) -> Option<Difference> {
    match request.list.changes().collect::<Vec<_>>()[..] {
        [(id, REMOVE_NODE)] => comparison.unplugged(&request.state, id, true).err(),
        _ => None,
    }
}

// ** Calls

type Fails<'a> = &'a mut dyn FnMut(&Request) -> bool;

/// Tries every smaller form in turn, until none shows the difference.
fn call(request: Request, fails: Fails) -> Box<Request> {
    let mut best = Box::new(request);
    loop {
        let before = *best;
        shorten(&mut best, fails);
        keep_if(&mut best, fails, rename);
        zero_words(&mut best, fails);
        if *best == before {
            return best;
        }
    }
}

/// Keeps a change if the difference still shows.
fn keep_if(best: &mut Box<Request>, fails: Fails, change: impl FnOnce(&mut Request)) -> bool {
    let mut tried = best.clone();
    change(&mut tried);
    let kept = tried != *best && fails(&tried);
    if kept {
        *best = tried;
    }
    kept
}

/// Takes out entries of lists, ids of sets and tracked ids with their records: longer runs first.
fn shorten(best: &mut Box<Request>, fails: Fails) {
    for run in [64, 16, 4, 1] {
        for place in (0..LIST_PLACES).rev().step_by(run) {
            keep_if(best, fails, |r| cut_list(&mut r.list, place, run));
        }
        for place in (0..LOG_PLACES).rev().step_by(run) {
            keep_if(best, fails, |r| cut_log(&mut r.log, place, run));
        }
        for place in (0..CAPACITY).rev().step_by(run) {
            for set in 0..4 {
                keep_if(best, fails, |r| cut_ids(r.state.conf.sets_mut()[set], place, run));
                keep_if(best, fails, |r| cut_ids(r.conf.sets_mut()[set], place, run));
                keep_if(best, fails, |r| cut_ids(r.conf_state.lists_mut()[set], place, run));
            }
            keep_if(best, fails, |r| cut_tracked(r, place, run));
        }
        for id in ids(best) {
            keep_if(best, fails, |r| cut_everywhere(r, id));
        }
    }
}

/// Takes `run` items that end with `place` out of the used part of an array, and fills up with `empty`.
fn cut<T: Copy>(items: &mut [T], count: &mut u64, place: usize, run: usize, empty: T) {
    let used = *count as usize;
    if used <= items.len() && place < used {
        let from = (place + 1).saturating_sub(run);
        items.copy_within(place + 1..used, from);
        let left = used - (place + 1 - from);
        items[left..used].fill(empty);
        *count = left as u64;
    }
}

fn cut_ids(set: &mut Ids, place: usize, run: usize) {
    cut(&mut set.ids, &mut set.count, place, run, 0);
}

fn cut_list(list: &mut List, place: usize, run: usize) {
    cut(&mut list.ids, &mut list.ids_count, place, run, 0);
    cut(&mut list.kinds, &mut list.kinds_count, place, run, 0);
}

fn cut_log(log: &mut Log, place: usize, run: usize) {
    cut(&mut log.entries, &mut log.count, place, run, Entry { id: 0, kind: 0 });
}

fn cut_tracked(request: &mut Request, place: usize, run: usize) {
    let mut count = request.state.tracked.count;
    cut(&mut request.state.records, &mut count, place, run, Record::zero());
    cut_ids(&mut request.state.tracked, place, run);
}

/// Takes one id out of the state, the configuration and the list.
fn cut_everywhere(request: &mut Request, id: u64) {
    let place_in = |used: &[u64]| used.iter().position(|&x| x == id);
    for set in request.state.conf.sets_mut().into_iter().chain(request.conf.sets_mut()) {
        if let Some(place) = place_in(set.used()) {
            cut_ids(set, place, 1);
        }
    }
    if let Some(place) = place_in(request.state.tracked.used()) {
        cut_tracked(request, place, 1);
    }
    while let Some(place) = place_in(request.list.used_ids()) {
        cut_list(&mut request.list, place, 1);
    }
    while let Some(place) = request.log.used().iter().position(|entry| entry.id == id) {
        cut_log(&mut request.log, place, 1);
    }
}

/// Every id of the request.
fn ids(request: &Request) -> Vec<u64> {
    let mut all: Vec<u64> = vec![];
    all.extend(request.state.conf.sets().into_iter().flat_map(Ids::used));
    all.extend(request.conf.sets().into_iter().flat_map(Ids::used));
    all.extend(request.conf_state.lists().into_iter().flat_map(Ids::used));
    all.extend(request.state.tracked.used());
    all.extend(request.list.used_ids());
    all.extend(request.log.used().iter().map(|entry| entry.id));
    all.sort_unstable();
    all.dedup();
    all
}

/// Gives the ids the smallest numbers in the same order; 0 stays 0.
fn rename(request: &mut Request) {
    let names: BTreeMap<u64, u64> = (1..).zip(ids(request).into_iter().filter(|&id| id != 0)).map(|(n, id)| (id, n)).collect();
    let renamed = |id: &mut u64| *id = names.get(id).copied().unwrap_or(*id);
    let Request { state, conf, conf_state, list, log, .. } = request;
    for set in state.conf.sets_mut().into_iter().chain(conf.sets_mut()).chain(conf_state.lists_mut()) {
        set.ids.iter_mut().for_each(renamed);
    }
    state.tracked.ids.iter_mut().for_each(renamed);
    list.ids.iter_mut().for_each(renamed);
    log.entries.iter_mut().for_each(|entry| renamed(&mut entry.id));
}

/// Sets words to zero, else to one.
fn zero_words(best: &mut Box<Request>, fails: Fails) {
    for place in 1..best.words().len() {
        if best.words()[place] != 0 && !keep_if(best, fails, |r| r.words_mut()[place] = 0) && best.words()[place] > 1 {
            keep_if(best, fails, |r| r.words_mut()[place] = 1);
        }
    }
}

// ** Scripts

/// Takes out runs of records and bytes, and makes numbers small, as long as that helps.
fn script(bytes: Vec<u8>, fails: &mut dyn FnMut(&[u8]) -> bool) -> Vec<u8> {
    let mut best = bytes;
    loop {
        let before = best.clone();
        let mut run = (best.len() / RECORD).next_power_of_two();
        while run > 0 {
            cut_runs(&mut best, run * RECORD, fails);
            run /= 2;
        }
        if best.len() <= 400 * RECORD {
            cut_runs(&mut best, 1, fails);
            small_numbers(&mut best, fails);
        }
        if best == before {
            return best;
        }
    }
}

/// Takes out runs of so many bytes.
fn cut_runs(best: &mut Vec<u8>, step: usize, fails: &mut dyn FnMut(&[u8]) -> bool) {
    let mut end = best.len();
    while end >= step {
        let tried = [&best[..end - step], &best[end..]].concat();
        if fails(&tried) {
            *best = tried;
        }
        end -= step;
    }
}

/// Each record's number, from the first on, becomes the smallest that still shows the difference, the same numbers alike.
fn small_numbers(best: &mut Vec<u8>, fails: &mut dyn FnMut(&[u8]) -> bool) {
    for at in (0..best.len() / RECORD).map(|record| record * RECORD) {
        let old: [u8; 8] = best[at + 1..at + RECORD].try_into().expect("eight bytes");
        for number in 0..u64::from_le_bytes(old).min(8) {
            let mut tried = best.clone();
            for record in tried.chunks_exact_mut(RECORD).filter(|record| record[1..] == old) {
                record[1..].copy_from_slice(&number.to_le_bytes());
            }
            if fails(&tried) {
                *best = tried;
                break;
            }
        }
    }
}

// ** Messages

/// A message whose every run of bytes is tried.
const SHORT: usize = 100;

/// Takes out numbers and runs of bytes, and makes bytes small, as long as that helps.
fn message(bytes: Vec<u8>, fails: &mut dyn FnMut(&[u8]) -> bool) -> Vec<u8> {
    let mut best = bytes;
    loop {
        let before = best.clone();
        (0..best.len()).for_each(|place| cut_numbers(&mut best, place, fails));
        let mut run = best.len().next_power_of_two();
        while run > 0 {
            cut_runs(&mut best, run, fails);
            run /= 2;
        }
        if best.len() <= SHORT {
            cut_any_run(&mut best, fails);
        }
        (0..best.len()).for_each(|place| small_byte(&mut best, place, fails));
        if best == before {
            return best;
        }
    }
}

fn cut_any_run(best: &mut Vec<u8>, fails: &mut dyn FnMut(&[u8]) -> bool) {
    for run in (1..=best.len()).rev() {
        let mut from = 0;
        while from + run <= best.len() {
            let tried = [&best[..from], &best[from + run..]].concat();
            if fails(&tried) {
                *best = tried;
            } else {
                from += 1;
            }
        }
    }
}

/// If a length may be at this place: takes out runs of the numbers behind it, and gives single ones the shortest form of 0.
fn cut_numbers(best: &mut Vec<u8>, place: usize, fails: &mut dyn FnMut(&[u8]) -> bool) {
    for (run, put) in [(64, &[][..]), (16, &[]), (4, &[]), (1, &[]), (1, &[0])] {
        let mut first = 0;
        while let Some(tried) = with_numbers(best, place, first, run, put) {
            if tried.len() < best.len() && fails(&tried) {
                *best = tried;
            } else {
                first += run;
            }
        }
    }
}

/// The message with something else in the place of a run of packed numbers, whose length is at this place; none where there are no such
/// numbers.
fn with_numbers(bytes: &[u8], place: usize, first: usize, run: usize, put: &[u8]) -> Option<Vec<u8>> {
    let ends = |byte: &u8| *byte < 0x80;
    let length_ends = place + 1 + bytes.get(place..)?.iter().take(2).position(ends)?;
    let length = bytes[place..length_ends].iter().rev().fold(0, |length, byte| length << 7 | usize::from(byte & 0x7f));
    let payload = bytes.get(length_ends..length_ends + length)?;
    let numbers: Vec<&[u8]> = payload.split_inclusive(ends).collect();
    let (before, rest) = numbers.split_at_checked(first).filter(|(_, rest)| !rest.is_empty())?;
    let kept = [&before.concat(), put, &rest[run.min(rest.len())..].concat()].concat();
    Some([&bytes[..place], &varint(kept.len() as u64), &kept, &bytes[length_ends + length..]].concat())
}

/// A byte becomes the smallest that still shows the difference.
fn small_byte(best: &mut Vec<u8>, place: usize, fails: &mut dyn FnMut(&[u8]) -> bool) {
    for byte in 0..best[place] {
        let mut tried = best.clone();
        tried[place] = byte;
        if fails(&tried) {
            *best = tried;
            break;
        }
    }
}

/// One that is longer than any with a fault of its own: that it is so long is what matters, and among two it is left as it is.
pub const LONG_MESSAGE: usize = 4_096;

/// Makes each of two messages smaller in turn, as long as that helps.
fn pair(messages: [Vec<u8>; 2], fails: &mut dyn FnMut(&[Vec<u8>; 2]) -> bool) -> [Vec<u8>; 2] {
    let mut best = messages;
    loop {
        let before = best.clone();
        smaller_lists(&mut best, fails);
        for which in 0..2 {
            if best[which].len() <= LONG_MESSAGE {
                let mut tried = best.clone();
                best[which] = message(best[which].clone(), &mut |bytes| {
                    tried[which] = bytes.to_vec();
                    fails(&tried)
                });
            }
        }
        if best == before {
            return best;
        }
    }
}

/// Takes ids out of both messages at once, and gives the others the smallest numbers in the same order, where that makes them
/// shorter.
fn smaller_lists(best: &mut [Vec<u8>; 2], fails: &mut dyn FnMut(&[Vec<u8>; 2]) -> bool) {
    let ids_of = |messages: &[Vec<u8>; 2]| messages.iter().flat_map(|bytes| Said::by(bytes).ids()).collect::<Set>();
    let mut keep_if_shorter = |best: &mut [Vec<u8>; 2], tried: [Vec<u8>; 2]| {
        if tried.concat().len() < best.concat().len() && fails(&tried) {
            *best = tried;
        }
    };
    for id in ids_of(best) {
        let tried = best.each_ref().map(|bytes| with_lists(bytes, |ids| ids.retain(|&known| known != id)));
        keep_if_shorter(best, tried);
    }
    let names: BTreeMap<u64, u64> = ids_of(best).into_iter().zip(0..).collect();
    let tried = best.each_ref().map(|bytes| with_lists(bytes, |ids| ids.iter_mut().for_each(|id| *id = names[id])));
    keep_if_shorter(best, tried);
}

/// The message of changed lists; one that is refused, or very long, stays as it is.
fn with_lists(bytes: &[u8], change: impl Fn(&mut Vec<u64>)) -> Vec<u8> {
    let (number, mut lists) = read(&Model::PAPER, bytes);
    if number != 0 || bytes.len() > LONG_MESSAGE {
        return bytes.to_vec();
    }
    [&mut lists.voters, &mut lists.learners, &mut lists.voters_outgoing, &mut lists.learners_next].into_iter().for_each(change);
    written(&Model::PAPER, &lists)
}

/// Takes out ids, and makes words 0 or 1: by the lists of a request.
fn lists(written: ConfState, fails: &mut dyn FnMut(&ConfState) -> bool) -> Box<ConfState> {
    let mut request = Request::new(0);
    request.conf_state = written;
    Box::new(call(*request, &mut |tried| fails(&tried.conf_state)).conf_state)
}
