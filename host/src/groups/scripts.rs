//! Scripts through `dimecandle_replay`, and their listings.

use super::Size;
use crate::compare::{Against, Compared, Comparison, Difference, Failure, Input, Room};
use crate::generate;
use crate::random::Random;
use crate::script::{ENTER, ENTER_AUTO, LEAVE, LONGEST_SCRIPT, RECORD, SIMPLE};
use crate::show;

const ADD: u8 = 0;
const REMOVE: u8 = 1;
const LEARNER: u8 = 2;

pub fn record(kind: u8, number: u64) -> [u8; RECORD] {
    let mut record = [kind; RECORD];
    record[1..].copy_from_slice(&number.to_le_bytes());
    record
}

pub fn script(records: &[(u8, u64)]) -> Vec<u8> {
    records.iter().flat_map(|&(kind, number)| record(kind, number)).collect()
}

// ** The paper's own

pub const EXAMPLE: [(u8, u64); 9] =
    [(ADD, 1), (SIMPLE, 10), (ADD, 2), (ADD, 3), (SIMPLE, 11), (ADD, 2), (ADD, 3), (ENTER_AUTO, 12), (LEAVE, 13)];

const EXAMPLE_LISTING: &str = "1 ok voters=(1) log=(+1)
2 refused 18 id 0
3 ok voters=(1 2 3)&&(1) autoleave log=(+2 +3)
4 ok voters=(1 2 3) log=()
";

pub fn example(comparison: &mut Comparison, _: &mut Random, _: Size) -> Compared {
    let bytes = script(&EXAMPLE);
    comparison.script(&bytes)?;
    let printed = |comparison: &mut Comparison| {
        let mut out = vec![0; EXAMPLE_LISTING.len()];
        let length = comparison.subject.replay(&bytes, &mut out);
        let what = || show::listings(&out, EXAMPLE_LISTING.as_bytes());
        let right = length == out.len() as u64 && out == EXAMPLE_LISTING.as_bytes();
        (!right).then(|| Difference { against: Against::Paper, what: what() })
    };
    match comparison.each_side(printed) {
        None => Ok(()),
        Some(difference) => Err(Box::new(Failure { input: Input::Other(show::script(&bytes)), difference })),
    }
}

// ** Every small one

pub fn every(comparison: &mut Comparison, _: &mut Random, size: Size) -> Compared {
    let mut letters: Vec<(u8, u64)> = vec![(SIMPLE, 7), (ENTER, 8), (ENTER_AUTO, 9), (LEAVE, 10)];
    letters.extend([1, 2].iter().flat_map(|&id| [ADD, REMOVE, LEARNER].map(|kind| (kind, id))));
    let count = letters.len();
    for length in 0..=size.pick(4, 5, 6) {
        for choice in 0..count.pow(length) {
            let records: Vec<_> = (0..length).map(|place| letters[choice / count.pow(place) % count]).collect();
            let rooms = &Room::ALL[choice % 3..choice % 3 + 1];
            comparison.script_with(&script(&records), rooms)?;
        }
    }
    Ok(())
}

// ** Random ones

/// Runs of changes, each followed by a call. Mostly a call that may be accepted: a leave where the last was an enter.
fn some_script(random: &mut Random, ids: &[u64], records: usize, longest_list: usize) -> Vec<(u8, u64)> {
    let (mut script, mut joint) = (vec![], false);
    let style = random.below(3);
    while script.len() < records {
        if joint && !random.one_in(8) {
            script.push((LEAVE, random.number()));
            joint = false;
            continue;
        }
        let count = if random.one_in(2) { 1 } else { random.below(longest_list + 1) };
        for _ in 0..count {
            let kind = match style {
                0 => random.pick(&[ADD, REMOVE, LEARNER]),
                1 => random.pick(&[ADD, ADD, ADD, ADD, LEARNER, LEARNER, REMOVE]),
                _ => random.pick(&[LEARNER, LEARNER, LEARNER, REMOVE, ADD]),
            };
            let id = if random.one_in(20) { random.pick(&[0, u64::MAX, 99]) } else { random.pick(ids) };
            script.push((kind, id));
        }
        let kind = random.pick(&[SIMPLE, SIMPLE, ENTER, ENTER_AUTO]);
        joint = kind != SIMPLE || (joint && random.one_in(2));
        script.push((kind, random.number()));
    }
    script
}

pub fn few_ids(comparison: &mut Comparison, random: &mut Random, size: Size) -> Compared {
    for _ in 0..size.pick(300, 12_000, 200_000) {
        let count = random.between(1, 7);
        let ids = generate::ids(random, count);
        let records = random.between(1, 40);
        comparison.script(&script(&some_script(random, &ids, records, 4)))?;
    }
    Ok(())
}

/// Scripts that come to 64 tracked ids and go on.
pub fn many_ids(comparison: &mut Comparison, random: &mut Random, size: Size) -> Compared {
    for _ in 0..size.pick(10, 300, 6_000) {
        let count = random.between(64, 90);
        let ids = generate::ids(random, count);
        let mut records = vec![(ADD, ids[0]), (SIMPLE, 1)];
        records.extend(ids[1..64].iter().map(|&id| (random.pick(&[ADD, LEARNER]), id)));
        records.push((ENTER, 1));
        let more = random.between(50, 700);
        let longest_list = random.pick(&[3, 20, 100]);
        records.extend(some_script(random, &ids, more, longest_list));
        comparison.script(&script(&records))?;
    }
    Ok(())
}

pub fn cut(comparison: &mut Comparison, random: &mut Random, size: Size) -> Compared {
    for _ in 0..size.pick(2, 60, 1_000) {
        let records = random.between(5, 14);
        let whole = script(&some_script(random, &[1, 2, 3], records, 3));
        for length in 0..=whole.len() {
            comparison.script(&whole[..length])?;
        }
    }
    Ok(())
}

/// Some bytes changed, left out or put in between; the kinds beyond 6 stop it.
pub fn damaged(comparison: &mut Comparison, random: &mut Random, size: Size) -> Compared {
    for _ in 0..size.pick(300, 12_000, 200_000) {
        let records = random.between(1, 30);
        let mut bytes = script(&some_script(random, &[1, 2, 3, 4], records, 3));
        for _ in 0..random.between(1, 3) {
            let place = random.below(bytes.len());
            match random.below(4) {
                0 => bytes[place] = random.next() as u8,
                1 => bytes[place / RECORD * RECORD] = random.between(0, 9) as u8,
                2 if bytes.len() > 1 => drop(bytes.remove(place)),
                _ => bytes.insert(place, random.next() as u8),
            }
        }
        comparison.script(&bytes)?;
    }
    Ok(())
}

// ** Limits

/// 255 to 257 changes pending, then each kind of run; and at the end.
pub fn pending(comparison: &mut Comparison, random: &mut Random, _: Size) -> Compared {
    for changes in 254..=258 {
        for kind in 0..=7 {
            for id in [0, 1, 2] {
                let mut records = vec![(ADD, 1), (SIMPLE, 1)];
                records.extend((0..changes).map(|_| (random.pick(&[ADD, LEARNER, REMOVE]), id)));
                comparison.script(&script(&records))?;
                records.push((kind, 5));
                comparison.script(&script(&records))?;
                records.extend([(ADD, 3), (SIMPLE, 2)]);
                comparison.script(&script(&records))?;
            }
        }
    }
    Ok(())
}

/// 64 voters of 20 digits on both sides, and as many lines as there is room for: the longest listing.
pub fn longest_listing() -> Vec<(u8, u64)> {
    let mut records = vec![];
    for id in 0..64 {
        records.extend([(ADD, u64::MAX - id), (SIMPLE, id)]);
    }
    while records.len() < LONGEST_SCRIPT / RECORD {
        records.push((if records.len() % 2 == 0 { ENTER } else { LEAVE }, 3));
    }
    records
}

/// Calls without changes, as many as there is room for.
fn many_short_lines() -> Vec<(u8, u64)> {
    let mut records = vec![(ADD, 1), (SIMPLE, 1)];
    records.resize(LONGEST_SCRIPT / RECORD, (SIMPLE, 1));
    records
}

pub fn longest(comparison: &mut Comparison, random: &mut Random, size: Size) -> Compared {
    let mut wholes = vec![script(&many_short_lines()), vec![0; LONGEST_SCRIPT], vec![SIMPLE; LONGEST_SCRIPT]];
    if size != Size::Quick {
        wholes.push(script(&longest_listing()));
    }
    for _ in 0..size.pick(1, 3, 40) {
        let ids = generate::ids(random, 70);
        wholes.push(script(&some_script(random, &ids, LONGEST_SCRIPT / RECORD, 40)));
    }
    for mut bytes in wholes {
        for length in [LONGEST_SCRIPT / RECORD * RECORD, LONGEST_SCRIPT - 1, LONGEST_SCRIPT, LONGEST_SCRIPT + 1] {
            bytes.resize(length, 0);
            comparison.script(&bytes)?;
        }
    }
    comparison.script(&vec![9; 1 << 20])
}
