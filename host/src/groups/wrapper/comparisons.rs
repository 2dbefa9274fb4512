//! The wrapper's `ConfState::compare`.

use super::expect;
use super::messages::differs;
use crate::compare::pairs::right_lines;
use crate::compare::{Compared, Comparison, Failure, Input};
use crate::dimecandle::ConfState;
use crate::groups::comparisons::{longest_pair, some_pair, stretched};
use crate::groups::Size;
use crate::lines::{LONGEST_FILE, LONGEST_LINES, NO_ROOM_FOR_LINES};
use crate::message::{packed, single, REFUSED};
use crate::random::Random;
use crate::show;

pub fn comparisons(comparison: &mut Comparison, random: &mut Random, size: Size) -> Compared {
    beyond_the_limits(comparison)?;
    for _ in 0..size.pick(500, 10_000, 200_000) {
        let [first, second] = some_pair(random);
        compares(comparison, &first, &second)?;
    }
    Ok(())
}

/// What the wrapper says of two messages, in just enough bytes, in more and in one too few. Of the second side its entry is asked
/// the same, without the wrapper.
fn compares(comparison: &mut Comparison, first: &[u8], second: &[u8]) -> Compared {
    comparison.inputs += 1;
    let right = right_lines(first, second);
    let length = right.as_ref().map_or(0, String::len);
    for room in [length, length + 9, length.saturating_sub(1)] {
        let expected = match &right {
            Ok(lines) if lines.len() > room => Err(NO_ROOM_FOR_LINES - REFUSED),
            Ok(lines) => Ok(lines.clone()),
            Err(number) => Err(*number),
        };
        let mut out = vec![0xa5; room];
        let said = ConfState::compare(first, second, &mut out).map(str::to_string).map_err(|refused| refused.number);
        let written = expected.as_deref().unwrap_or_default();
        let kept = out == [written.as_bytes(), &vec![0xa5; room - written.len()]].concat();
        if said != expected || !kept {
            let what = format!("with {room} bytes it says {said:?}, expected {expected:?}; the bytes are {}", show::hex(&out));
            return differs(show::pair(first, second), what);
        }
    }
    match comparison.second_side(|second_side| second_side.lines_difference(first, second, &right)) {
        None => Ok(()),
        Some(difference) => Err(Box::new(Failure { input: Input::Pair(first.to_vec(), second.to_vec()), difference })),
    }
}

/// Each refusal, by its number, and the longest lines.
fn beyond_the_limits(comparison: &mut Comparison) -> Compared {
    let (voter, long_list) = (single(1, 5), packed(1, &[1; 65]));
    let [whole, over] = [LONGEST_FILE, LONGEST_FILE + 1].map(|length| stretched(&voter, length));
    let refused: [(&str, u64, &[u8], &[u8]); 8] = [
        ("32,769 bytes beside none", 32, &over, &[]),
        ("a cut message beside 32,769 bytes", 32, &[0x08], &over),
        ("a cut message beside a group", 28, &[0x08], &[0x0b]),
        ("a group beside a cut message", 29, &[0x0b], &[0x08]),
        ("65 voters beside none", 30, &long_list, &[]),
        ("none beside 65 voters", 30, &[], &long_list),
        ("a line in no bytes", 100, &voter, &[]),
        ("32,768 bytes beside the same voter", 0, &whole, &voter),
    ];
    for (what, number, first, second) in refused {
        expect(comparison, &format!("{what} compared"), number, ConfState::compare(first, second, &mut []).map(|_| ()))?;
    }
    let [first, second] = longest_pair();
    let mut out = vec![0; ConfState::LONGEST_LINES];
    let length = ConfState::compare(&first, &second, &mut out).map_or(0, str::len);
    if length != LONGEST_LINES || length != ConfState::LONGEST_LINES {
        return differs("the longest lines".to_string(), format!("they have {length} bytes, not {LONGEST_LINES}"));
    }
    compares(comparison, &first, &second)
}
