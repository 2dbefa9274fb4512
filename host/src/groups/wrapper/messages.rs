//! The wrapper's `ConfState::read` and `ConfState::write`.

use super::{conf_state, expect, write_lists};
use crate::compare::messages::{right_message, Reading};
use crate::compare::{Against, Compared, Comparison, Difference, Failure, Input};
use crate::dimecandle::ConfState;
use crate::groups::messages::{some_lists, some_message};
use crate::groups::Size;
use crate::message::{packed, LONGEST_MESSAGE, NO_ROOM_FOR_IT, REFUSED};
use crate::random::Random;
use crate::show;
use crate::words::{self, Block};

pub fn messages(comparison: &mut Comparison, random: &mut Random, size: Size) -> Compared {
    beyond_the_limits(comparison)?;
    for _ in 0..size.pick(500, 15_000, 300_000) {
        reads(comparison, &some_message(random))?;
        if random.one_in(3) {
            writes(comparison, &some_lists(random))?;
        }
    }
    Ok(())
}

/// What the wrapper reads beside what is right. Of the second side its entry is asked the same, without the wrapper.
fn reads(comparison: &mut Comparison, bytes: &[u8]) -> Compared {
    comparison.inputs += 1;
    let right = Reading::of(bytes);
    let reading = through_the_wrapper(bytes);
    if reading != right {
        return differs(show::message(bytes), show::readings(&reading, &right));
    }
    match comparison.second_side(|second| second.reading_difference(bytes, &right)) {
        None => Ok(()),
        Some(difference) => Err(Box::new(Failure { input: Input::Message(bytes.to_vec()), difference })),
    }
}

/// The reading that the wrapper's result amounts to.
fn through_the_wrapper(bytes: &[u8]) -> Reading {
    let mut lists = Box::new(words::ConfState::zero());
    let number = match ConfState::read(bytes) {
        Err(refused) => refused.number,
        Ok(read) => {
            write_lists(&read, &mut lists);
            0
        }
    };
    Reading { number, lists }
}

/// What the wrapper writes: to bytes of its own, to just enough, to more and to one too few.
fn writes(comparison: &mut Comparison, lists: &words::ConfState) -> Compared {
    comparison.inputs += 1;
    let right = right_message(lists);
    let (message, written) = (right.clone().unwrap_or_default(), conf_state(lists));
    if written.to_bytes().as_ref() != Ok(&message) {
        return differs(show::conf_state(lists), format!("to_bytes gives {:?}", written.to_bytes()));
    }
    let length = message.len();
    for room in [length, length + 9, length.saturating_sub(1)] {
        let mut bytes = vec![0xa5; room];
        let returned = match written.write(&mut bytes) {
            Ok(length) => length as u64,
            Err(refused) => REFUSED + refused.number,
        };
        let expected = if room < length { (NO_ROOM_FOR_IT, vec![]) } else { (length as u64, message.clone()) };
        let kept = vec![0xa5; room - expected.1.len()];
        if (returned, &bytes) != (expected.0, &[expected.1, kept].concat()) {
            let what = format!("with {room} bytes it gives {}, and the bytes are {}", show::written(returned), show::hex(&bytes));
            return differs(show::conf_state(lists), what);
        }
    }
    match comparison.second_side(|second| second.writing_difference(lists, &right)) {
        None => Ok(()),
        Some(difference) => Err(Box::new(Failure { input: Input::Lists(Box::new(*lists)), difference })),
    }
}

pub fn differs(input: String, what: String) -> Compared {
    let difference = Difference { against: Against::Paper, what };
    Err(Box::new(Failure { input: Input::Other(format!("through dimecandle.rs: {input}")), difference }))
}

/// More ids than a list has places, and the longest message.
fn beyond_the_limits(comparison: &mut Comparison) -> Compared {
    let lists = |count| ConfState { voters: vec![1; count], ..ConfState::default() };
    for count in [65, 66, 300] {
        expect(comparison, &format!("{count} voters written"), 2, lists(count).to_bytes().map(|_| ()))?;
        expect(comparison, &format!("{count} voters written to no bytes"), 2, lists(count).write(&mut []).map(|_| ()))?;
        expect(comparison, &format!("{count} voters read"), 30, ConfState::read(&packed(1, &vec![1; count])).map(|_| ()))?;
    }
    expect(comparison, "64 voters written to no bytes", 31, lists(64).write(&mut []).map(|_| ()))?;
    let ids = || vec![u64::MAX; 64];
    let full = ConfState { voters: ids(), learners: ids(), voters_outgoing: ids(), learners_next: ids(), auto_leave: true };
    let length = full.to_bytes().map_or(0, |bytes| bytes.len());
    if length != LONGEST_MESSAGE || length != ConfState::LONGEST_MESSAGE {
        return differs("four full lists".to_string(), format!("their message has {length} bytes, not {LONGEST_MESSAGE}"));
    }
    Ok(())
}
