//! Small messages with what they say worked by hand, from the public Protocol Buffers encoding document and document 02, k).

use super::other;
use crate::compare::messages::{right_message, Reading};
use crate::compare::{Against, Compared, Comparison, Difference};
use crate::groups::Size;
use crate::random::Random;
use crate::show;
use crate::words::{Block, ConfState, Ids};

/// What a message says: the four lists, and the flag.
type Said = ([&'static [u64]; 4], u64);

const NOTHING: Said = ([&[], &[], &[], &[]], 0);

const fn voters(ids: &'static [u64]) -> Said {
    ([ids, &[], &[], &[]], 0)
}

const FLAG: Said = ([&[], &[], &[], &[]], 1);

/// Bytes in hex that are accepted, and what they say.
#[rustfmt::skip]
const ACCEPTED: [(&str, Said); 30] = [
    // no field at all
    ("", NOTHING),
    // 08: field 1, wire type 0
    ("08 01", voters(&[1])),
    ("08 00", voters(&[0])),
    // 0a: field 1, wire type 2
    ("0a 03 01 02 03", voters(&[1, 2, 3])),
    ("0a 00", NOTHING),
    // the public document's own: 96 01 is 22 + 128
    ("0a 02 96 01", voters(&[150])),
    // and its packed example, under our number: 3, 270, 86942
    ("22 06 03 8e 02 9e a7 05", ([&[], &[], &[], &[3, 270, 86_942]], 0)),
    // as rust-protobuf writes: ac 02 is 44 + 2 * 128
    ("08 01 08 02 08 ac 02 10 05 28 01", ([&[1, 2, 300], &[5], &[], &[]], 1)),
    // single and packed, repeats kept
    ("08 07 0a 02 08 09 08 07", voters(&[7, 8, 9, 7])),
    // the fields from the last to the first
    ("28 01 22 01 04 1a 01 03 12 01 02 0a 01 01", ([&[1], &[2], &[3], &[4]], 1)),
    ("20 04 18 03 10 02 08 01", ([&[1], &[2], &[3], &[4]], 0)),
    // the last flag decides, and any but 0 is true
    ("28 01 28 00", NOTHING),
    ("28 00 28 02", FLAG),
    ("28 80 80 80 80 80 80 80 80 80 01", FLAG),
    ("28 80 00", NOTHING),
    // 63 bits, and all 64
    ("08 ff ff ff ff ff ff ff ff 7f", voters(&[(1 << 63) - 1])),
    ("08 80 80 80 80 80 80 80 80 80 01", voters(&[1 << 63])),
    ("0a 0a ff ff ff ff ff ff ff ff ff 01", voters(&[u64::MAX])),
    // varints longer than they need be: a tag, a length, a number, all of ten bytes
    ("88 00 05", voters(&[5])),
    ("0a 82 00 01 02", voters(&[1, 2])),
    ("08 85 80 80 80 80 80 80 80 80 00", voters(&[5])),
    ("88 80 80 80 80 80 80 80 80 00 06", voters(&[6])),
    // skipped: field 6 under wire types 0, 1, 2 and 5
    ("30 05 08 01", voters(&[1])),
    ("31 08 02 08 02 08 02 08 02 08 01", voters(&[1])),
    ("32 02 ff ff 08 01", voters(&[1])),
    ("35 08 02 08 02 08 01", voters(&[1])),
    // field 16, whose tag has two bytes, and field 2^29 - 1: 2^32 - 8
    ("80 01 00 08 01", voters(&[1])),
    ("f8 ff ff ff 0f 00 08 01", voters(&[1])),
    // skipped, a number of ten bytes and no bytes at all
    ("30 ff ff ff ff ff ff ff ff ff 01", NOTHING),
    ("32 00 28 01", FLAG),
];

/// Bytes in hex that are refused, and with which number.
#[rustfmt::skip]
const REFUSED: [(&str, u64); 48] = [
    // cut: a tag, a number, eight bytes, four, a length, and what has a length
    ("80", 28),
    ("88 80", 28),
    ("08", 28),
    ("08 80", 28),
    ("31 01 02 03 04 05 06 07", 28),
    ("35 01 02 03", 28),
    ("0a", 28),
    ("0a 80", 28),
    ("0a 05 01 02", 28),
    ("32 01", 28),
    ("28", 28),
    // a packed number past its field's end, whatever follows
    ("0a 01 80 01", 28),
    ("0a 02 01 ff 08 01", 28),
    // lengths of 2^64 - 1 and 2^63
    ("0a ff ff ff ff ff ff ff ff ff 01", 28),
    ("32 80 80 80 80 80 80 80 80 80 01 00", 28),
    // over 64 bits: a tenth byte of 2, of a number, a flag, a tag, a length, of what is skipped
    ("08 ff ff ff ff ff ff ff ff ff 02", 29),
    ("28 80 80 80 80 80 80 80 80 80 02", 29),
    ("88 80 80 80 80 80 80 80 80 02", 29),
    ("88 80 80 80 80 80 80 80 80 02 01", 29),
    ("0a 81 80 80 80 80 80 80 80 80 02 01", 29),
    ("30 80 80 80 80 80 80 80 80 80 7f", 29),
    // over ten bytes; and cut after ten
    ("08 80 80 80 80 80 80 80 80 80 80 00", 29),
    ("08 80 80 80 80 80 80 80 80 80 80", 28),
    ("0a 0b 80 80 80 80 80 80 80 80 80 80 00", 29),
    ("0a 0a 80 80 80 80 80 80 80 80 80 80 00", 28),
    // wire types 3, 4, 6 and 7, at once, also of unknown fields
    ("0b", 29),
    ("0c 08 01", 29),
    ("36", 29),
    ("37 80", 29),
    // a list under 1 and 5, a flag under 1, 2 and 5: skipped first
    ("09 01 02 03 04 05 06 07 08", 29),
    ("09 01 02 03 04 05 06 07", 28),
    ("15 01 02 03 04", 29),
    ("15 01 02 03", 28),
    ("2a 00", 29),
    ("2a 01", 28),
    ("2d 01 02 03 04", 29),
    ("29 01", 28),
    // field number 0 and 2^29: skipped first
    ("00 00", 29),
    ("00", 28),
    ("02 01 80", 29),
    ("80 80 80 80 10 00", 29),
    ("80 80 80 80 10", 28),
    ("82 80 80 80 10 02 00", 28),
    // the first faulty field wins: 29 and then 28, 28 as far as the rest is concerned
    ("08 01 0b 08", 29),
    ("00 01 08", 29),
    // within a field the lower one: a number over ten bytes, and behind it one that is cut
    ("0a 0c 80 80 80 80 80 80 80 80 80 80 00 80", 28),
    ("0a 0c ff ff ff ff ff ff ff ff ff 02 01 02", 29),
    // what was read before is given up
    ("08 01 10 02 28 01 08", 28),
];

/// What is written, in hex.
#[rustfmt::skip]
const WRITTEN: [(Said, &str); 9] = [
    (NOTHING, ""),
    (FLAG, "28 01"),
    (voters(&[1]), "0a 01 01"),
    (voters(&[0]), "0a 01 00"),
    (voters(&[1, 2, 300]), "0a 04 01 02 ac 02"),
    (voters(&[3, 3, 1]), "0a 03 03 03 01"),
    (([&[127], &[128], &[16_383], &[16_384]], 1), "0a 01 7f 12 02 80 01 1a 02 ff 7f 22 03 80 80 01 28 01"),
    (([&[], &[], &[1 << 63], &[u64::MAX]], 0), "1a 0a 80 80 80 80 80 80 80 80 80 01 22 0a ff ff ff ff ff ff ff ff ff 01"),
    (([&[], &[5], &[], &[]], 1), "12 01 05 28 01"),
];

pub fn examples(comparison: &mut Comparison, _: &mut Random, _: Size) -> Compared {
    for (bytes, said) in ACCEPTED {
        reads(comparison, bytes, 0, said)?;
    }
    for (bytes, number) in REFUSED {
        reads(comparison, bytes, number, NOTHING)?;
    }
    for (said, bytes) in WRITTEN {
        writes(comparison, said, bytes)?;
    }
    Ok(())
}

fn reads(comparison: &mut Comparison, text: &str, number: u64, said: Said) -> Compared {
    let bytes = from_hex(text);
    let right = Reading { number, lists: Box::new(lists(said)) };
    comparison.message(&bytes)?;
    match comparison.each_side(|this| this.reading_difference(&bytes, &right)) {
        None => Ok(()),
        Some(difference) => Err(other(format!("worked by hand: {}", show::message(&bytes)), difference)),
    }
}

/// Every side writes as the model does, and the model as it is written here.
fn writes(comparison: &mut Comparison, said: Said, text: &str) -> Compared {
    let lists = lists(said);
    comparison.lists(&lists)?;
    let (bytes, written) = (from_hex(text), right_message(&lists));
    if written == Ok(bytes.clone()) {
        return Ok(());
    }
    let what = format!(
        "the model writes {}, expected {}",
        written.map_or("nothing".to_string(), |it| show::hex(&it)),
        show::hex(&bytes)
    );
    Err(other(format!("worked by hand: {}", show::conf_state(&lists)), Difference { against: Against::Paper, what }))
}

fn lists((ids, auto_leave): Said) -> ConfState {
    let mut lists = ConfState::zero();
    for (to, from) in lists.lists_mut().into_iter().zip(ids) {
        *to = Ids::of(from);
    }
    lists.auto_leave = auto_leave;
    lists
}

pub fn from_hex(text: &str) -> Vec<u8> {
    text.split_whitespace().map(|byte| u8::from_str_radix(byte, 16).expect("two digits")).collect()
}
