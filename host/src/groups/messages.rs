//! Messages through `dimecandle_read_conf_state` and `dimecandle_write_conf_state`: document 02, k). The bytes that are read come from
//! sources.rs; what is written, from written.rs.

mod by_hand;
mod encoders;
mod plain;
mod sources;
mod written;

pub use by_hand::{examples, from_hex};
pub use encoders::encoders;
pub use plain::plain;
pub use sources::{damage, some_message, unknown};
pub use written::{edges as write_edges, random as write_random, sizes as write_sizes, some_lists};

use super::Size;
use crate::compare::{Against, Compared, Comparison, Difference, Failure, Input};
use crate::message::{packed, single, UNREAD};
use crate::random::Random;
use crate::show;
use crate::words::CONF_STATE_WORDS;

pub fn short(comparison: &mut Comparison, random: &mut Random, size: Size) -> Compared {
    sources::short(random, size, &mut |bytes| comparison.message(bytes))
}

pub fn prefixes(comparison: &mut Comparison, random: &mut Random, size: Size) -> Compared {
    sources::prefixes(random, size, &mut |bytes| comparison.message(bytes))
}

pub fn damaged(comparison: &mut Comparison, random: &mut Random, size: Size) -> Compared {
    sources::damaged(random, size, &mut |bytes| comparison.message(bytes))
}

pub fn random_bytes(comparison: &mut Comparison, random: &mut Random, size: Size) -> Compared {
    sources::random_bytes(random, size, &mut |bytes| comparison.message(bytes))
}

pub fn random_fields(comparison: &mut Comparison, random: &mut Random, size: Size) -> Compared {
    sources::random_fields(random, size, &mut |bytes| comparison.message(bytes))
}

pub fn varints(comparison: &mut Comparison, random: &mut Random, size: Size) -> Compared {
    sources::varints(random, size, &mut |bytes| comparison.message(bytes))
}

pub fn lengths(comparison: &mut Comparison, random: &mut Random, size: Size) -> Compared {
    sources::lengths(random, size, &mut |bytes| comparison.message(bytes))
}

pub fn numbers(comparison: &mut Comparison, random: &mut Random, size: Size) -> Compared {
    sources::numbers(random, size, &mut |bytes| comparison.message(bytes))
}

pub fn long_lists(comparison: &mut Comparison, random: &mut Random, size: Size) -> Compared {
    sources::long_lists(random, size, &mut |bytes| comparison.message(bytes))
}

// ** What the reader returns

/// Fewer words than a CONFSTATE has are 100, whatever the message, and stay as they were. Of more the first are written.
pub fn read_edges(comparison: &mut Comparison, _: &mut Random, _: Size) -> Compared {
    let long = packed(1, &[7; 65]);
    let messages = [vec![], single(1, 5), packed(4, &[1, 2, 3]), single(5, 1), vec![0x08], vec![0x0b], long];
    for message in &messages {
        for words in [0, 1, 64, 65, CONF_STATE_WORDS - 1] {
            returns(comparison, UNREAD, message, words)?;
        }
        for _ in 0..3 {
            comparison.message(message)?;
        }
    }
    Ok(())
}

/// What the reader has to return, with every lent word as it was.
fn returns(comparison: &mut Comparison, expected: u64, message: &[u8], words: usize) -> Compared {
    comparison.inputs += 1;
    let before: Vec<u64> = (0..words as u64).map(|place| (1 << 40) + place).collect();
    let differs = |comparison: &mut Comparison| {
        let mut lent = before.clone();
        let returned = comparison.subject.read_conf_state(message, &mut lent);
        refused_untouched(returned, expected, &lent, &before)
    };
    match comparison.each_side(differs) {
        None => Ok(()),
        Some(difference) => Err(other(format!("{words} words for a {}", show::message(message)), difference)),
    }
}

/// Whether the right value was returned, and what was lent is as it was before.
fn refused_untouched<T: PartialEq>(returned: u64, expected: u64, lent: &[T], before: &[T]) -> Option<Difference> {
    let what = if returned != expected {
        format!("it returned {returned} and not {expected}")
    } else if lent != before {
        "what was lent was written".to_string()
    } else {
        return None;
    };
    Some(Difference { against: Against::Paper, what })
}

/// A failure of a test of its own.
pub fn other(input: String, difference: Difference) -> Box<Failure> {
    Box::new(Failure { input: Input::Other(input), difference })
}
