//! The plain Rust that the bench times beside the proved code, held against the second reader and writer: it has to answer as these do.

use super::other;
use super::sources;
use super::written::some_lists;
use crate::compare::messages::{right_message, Reading};
use crate::compare::{Against, Compared, Comparison, Difference};
use crate::groups::Size;
use crate::message::plain::{read, write};
use crate::message::{LONGEST_MESSAGE, NO_ROOM_FOR_IT};
use crate::random::Random;
use crate::show;
use crate::words::{Block, ConfState};

pub fn plain(comparison: &mut Comparison, random: &mut Random, size: Size) -> Compared {
    let Comparison { inputs, accepted, .. } = comparison;
    for source in sources::ALL {
        source(random, size, &mut |bytes| {
            let right = Reading::of(bytes);
            (*inputs, *accepted) = (*inputs + 1, *accepted + u64::from(right.number == 0));
            reads(bytes, &right)
        })?;
    }
    for _ in 0..size.pick(300, 5_000, 100_000) {
        let mut lists = some_lists(random);
        if random.one_in(10) {
            lists.lists_mut()[random.below(4)].count = random.number();
        }
        if random.one_in(10) {
            lists.auto_leave = random.number();
        }
        *inputs += 1;
        writes(&lists)?;
    }
    Ok(())
}

fn reads(bytes: &[u8], right: &Reading) -> Compared {
    let mut lists = Box::new(ConfState::zero());
    lists.words_mut().fill(7);
    let number = read(bytes, &mut lists);
    let reading = Reading { number, lists };
    if reading == *right {
        return Ok(());
    }
    differs(show::message(bytes), show::readings(&reading, right))
}

/// Into a longer buffer, one that is just long enough, and one that is a byte short.
fn writes(lists: &ConfState) -> Compared {
    let right = right_message(lists);
    let written = |room: usize| {
        let mut bytes = vec![0xa5; room];
        (write(lists, &mut bytes), bytes)
    };
    let expected = |room: usize| match &right {
        Err(refusal) => (*refusal, vec![0xa5; room]),
        Ok(message) if message.len() > room => (NO_ROOM_FOR_IT, vec![0xa5; room]),
        Ok(message) => (message.len() as u64, [&message[..], &vec![0xa5; room - message.len()]].concat()),
    };
    let length = right.as_ref().map_or(0, Vec::len);
    for room in [length, length.saturating_sub(1), LONGEST_MESSAGE + 3] {
        let (one, two) = (written(room), expected(room));
        if one != two {
            let what = format!(
                "{} {}, expected {} {}",
                show::written(one.0),
                show::hex(&one.1),
                show::written(two.0),
                show::hex(&two.1)
            );
            return differs(format!("{} in {room} bytes", show::conf_state(lists)), what);
        }
    }
    Ok(())
}

fn differs(input: String, what: String) -> Compared {
    Err(other(format!("src/message/plain.rs alone: {input}"), Difference { against: Against::Paper, what }))
}
