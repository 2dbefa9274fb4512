//! Two messages through `dimecandle_compare`: document 02, l). The pairs come from sources.rs.

mod by_hand;
mod plain;
mod sources;

pub use by_hand::{examples, reader};
pub use plain::plain;
pub use sources::{longest_pair, one_swapped, some_pair, stretched};

use super::messages::other;
use super::Size;
use crate::compare::pairs::{right_lines, Lines};
use crate::compare::{Against, Compared, Comparison, Difference};
use crate::lines::{LONGEST_LINES, NO_ROOM_FOR_LINES};
use crate::message::REFUSED;
use crate::random::Random;
use crate::show;

pub fn related(comparison: &mut Comparison, random: &mut Random, size: Size) -> Compared {
    sources::related(random, size, &mut |first, second| comparison.pair(first, second))
}

pub fn unrelated(comparison: &mut Comparison, random: &mut Random, size: Size) -> Compared {
    sources::unrelated(random, size, &mut |first, second| comparison.pair(first, second))
}

pub fn full(comparison: &mut Comparison, random: &mut Random, size: Size) -> Compared {
    sources::full(random, size, &mut |first, second| comparison.pair(first, second))
}

pub fn damaged(comparison: &mut Comparison, random: &mut Random, size: Size) -> Compared {
    sources::damaged(random, size, &mut |first, second| comparison.pair(first, second))
}

pub fn digits(comparison: &mut Comparison, random: &mut Random, size: Size) -> Compared {
    sources::digits(random, size, &mut |first, second| comparison.pair(first, second))
}

pub fn faults(comparison: &mut Comparison, random: &mut Random, size: Size) -> Compared {
    sources::faults(random, size, &mut |first, second| comparison.pair(first, second))
}

pub fn slices(comparison: &mut Comparison, random: &mut Random, size: Size) -> Compared {
    sources::slices(random, size, &mut |first, second| comparison.pair(first, second))
}

/// Every two messages over two ids, each two once: what is said the other way round is held against it. Of all 512 times 512
/// pairs an id differs in 15 of 16 and the flag in one of two.
pub fn small(comparison: &mut Comparison, random: &mut Random, size: Size) -> Compared {
    const LINES: u64 = 512 * 512 / 2 * (15 + 15 + 8) / 16;
    sources::small(random, size, &mut |first, second| comparison.pair(first, second))?;
    let said = comparison.lines;
    match size {
        Size::Usual | Size::Long if said != LINES => failed("all of them", format!("they have {said} lines in all, not {LINES}")),
        _ => Ok(()),
    }
}

/// Pairs with every list full, and the longest lines.
pub fn longest(comparison: &mut Comparison, random: &mut Random, size: Size) -> Compared {
    for [first, second] in [longest_pair(), sources::swapped(longest_pair())] {
        let length = right_lines(&first, &second).map_or(0, |lines| lines.len());
        if length != LONGEST_LINES {
            return failed("the longest lines", format!("they have {length} bytes, not {LONGEST_LINES}"));
        }
    }
    sources::longest(random, size, &mut |first, second| comparison.pair(first, second))
}

/// Some lines in every buffer up to their length and some bytes more; and refused messages in the same ones.
pub fn rooms(comparison: &mut Comparison, random: &mut Random, size: Size) -> Compared {
    for _ in 0..size.pick(1, 5, 50) {
        let [first, second] = sources::differing_pair(random);
        let right = right_lines(&first, &second);
        comparison.pair(&first, &second)?;
        for room in 0..right.as_ref().map_or(0, String::len).min(LONGEST_ROOM) + 3 {
            said_in(comparison, &first, &second, room, &right)?;
            said_in(comparison, &first, &[0x0b], room, &Err(29))?;
        }
    }
    Ok(())
}

/// The longest buffer of which every shorter one is lent too.
const LONGEST_ROOM: usize = 300;

/// What the subject has to say in a buffer of this length.
fn said_in(comparison: &mut Comparison, first: &[u8], second: &[u8], room: usize, right: &Lines) -> Compared {
    comparison.inputs += 1;
    let right = match right {
        Ok(lines) if lines.len() > room => Err(NO_ROOM_FOR_LINES),
        Ok(lines) => Ok(&lines[..]),
        Err(number) => Err(REFUSED + number),
    };
    let differs = |this: &mut Comparison| this.say_in(first, second, room, right).map(from_the_paper);
    match comparison.each_side(differs) {
        None => Ok(()),
        Some(difference) => Err(other(format!("in {room} bytes:\n{}", show::pair(first, second)), difference)),
    }
}

fn from_the_paper(what: String) -> Difference {
    Difference { against: Against::Paper, what }
}

fn failed(input: &str, what: String) -> Compared {
    Err(other(input.to_string(), from_the_paper(what)))
}
