//! Pairs of small messages with their lines worked by hand, from document 02, l), and the public Protocol Buffers encoding
//! document; and lines that no comparison gives, which their reader has to refuse.

use super::sources::{cut_at_the_end, related, stretched};
use super::{failed, other};
use crate::compare::pairs::{right_lines, Lines};
use crate::compare::{Compared, Comparison};
use crate::groups::messages::from_hex;
use crate::groups::Size;
use crate::lines::{compared, mirrored, read_back, Said, LONGEST_FILE};
use crate::message::{packed, single};
use crate::model::{Model, Wrong};
use crate::random::Random;
use crate::show;

/// Two messages in hex, and the lines.
#[rustfmt::skip]
const SAID: [(&str, &str, &str); 31] = [
    // the paper's own
    ("0a 02 01 02", "0a 02 01 03 12 01 02 28 01", "2 voters -> learners\n3 none -> voters\nauto_leave false -> true\n"),
    ("0a 02 01 03 12 01 02 28 01", "0a 02 01 02", "2 learners -> voters\n3 voters -> none\nauto_leave true -> false\n"),
    // equal meaning: nothing, an empty list, an unknown field, a false flag
    ("", "", ""),
    ("", "0a 00", ""),
    ("", "32 02 ff ff", ""),
    ("28 00", "", ""),
    // another order, repeats, single numbers, two fields, longer varints, unknown fields between
    ("0a 03 01 02 03", "0a 03 03 01 02", ""),
    ("0a 02 01 02", "0a 04 02 01 01 02", ""),
    ("0a 02 01 02", "08 02 08 01", ""),
    ("0a 03 01 02 03", "0a 01 03 12 00 0a 02 02 01", ""),
    ("08 05", "88 00 85 80 00", ""),
    ("0a 02 01 02", "30 05 08 01 35 01 02 03 04 08 02 32 00", ""),
    ("12 01 09 0a 01 08", "0a 01 08 12 01 09", ""),
    // the last flag decides, and any but 0 is true
    ("28 01", "28 02", ""),
    ("28 01 28 00", "", ""),
    ("28 01 28 00", "28 00 28 07", "auto_leave false -> true\n"),
    // an id that one message has, in each set
    ("08 04", "", "4 voters -> none\n"),
    ("10 04", "", "4 learners -> none\n"),
    ("18 04", "", "4 voters_outgoing -> none\n"),
    ("20 04", "", "4 learners_next -> none\n"),
    // ids 0 and 2^64 - 1
    ("08 00", "", "0 voters -> none\n"),
    ("0a 02 00 01", "0a 01 01", "0 voters -> none\n"),
    ("", "10 ff ff ff ff ff ff ff ff ff 01", "18446744073709551615 none -> learners\n"),
    ("08 ff ff ff ff ff ff ff ff ff 01", "08 00", "0 none -> voters\n18446744073709551615 voters -> none\n"),
    // ascending as numbers, not as text or as they come: 10, 9 and 100
    ("", "0a 03 0a 09 64", "9 none -> voters\n10 none -> voters\n100 none -> voters\n"),
    ("08 02", "20 01", "1 none -> learners_next\n2 voters -> none\n"),
    // ids of several sets
    ("08 01 10 01 18 01 20 01", "", "1 voters+voters_outgoing+learners+learners_next -> none\n"),
    ("08 01 18 01", "08 01 10 01", "1 voters+voters_outgoing -> voters+learners\n"),
    ("18 06 10 06", "20 06 18 06", "6 voters_outgoing+learners -> voters_outgoing+learners_next\n"),
    ("08 01 10 01", "08 01 10 01", ""),
    // a joint configuration left: 1 and 2 were kept, 3 was demoted
    ("0a 02 01 02 1a 02 01 03 22 01 03 28 01", "0a 02 01 02 12 01 03",
        "1 voters+voters_outgoing -> voters\n3 voters_outgoing+learners_next -> learners\nauto_leave true -> false\n"),
];

/// Two messages in hex that are refused, and with which number.
#[rustfmt::skip]
const REFUSED: [(&str, &str, u64); 12] = [
    // in the first, in the second
    ("08", "", 28),
    ("", "08", 28),
    ("0b", "", 29),
    ("", "0b", 29),
    ("0a 02 01 02", "0a 05 01 02", 28),
    ("0a 05 01 02", "0a 02 01 02", 28),
    // in both: the first's
    ("08", "0b", 28),
    ("0b", "08", 29),
    ("08", "08", 28),
    ("0b", "0b", 29),
    // the first faulty field of the first
    ("0b 08", "08", 29),
    ("08 01 00 00", "80", 29),
];

/// Longer ones, with their lines or their number: a list of 65, and slices of 32,768 and 32,769 bytes.
fn longer() -> Vec<(Vec<u8>, Vec<u8>, Lines)> {
    let (voter, long_list) = (single(1, 5), packed(4, &[9; 65]));
    let [whole, over] = [LONGEST_FILE, LONGEST_FILE + 1].map(|length| stretched(&voter, length));
    let cut = cut_at_the_end(LONGEST_FILE);
    vec![
        (long_list.clone(), vec![], Err(30)),
        (vec![], long_list.clone(), Err(30)),
        (long_list.clone(), vec![0x08], Err(30)),
        (vec![0x08], long_list.clone(), Err(28)),
        (long_list.clone(), long_list.clone(), Err(30)),
        (whole.clone(), vec![], Ok("5 voters -> none\n".to_string())),
        (vec![], whole.clone(), Ok("5 none -> voters\n".to_string())),
        (whole.clone(), whole.clone(), Ok(String::new())),
        (over.clone(), vec![], Err(32)),
        (vec![], over.clone(), Err(32)),
        (over.clone(), over.clone(), Err(32)),
        (cut.clone(), whole, Err(28)),
        // 32 before any fault, of the same message or of the other
        (cut.clone(), over.clone(), Err(32)),
        (over.clone(), cut, Err(32)),
        (vec![0x08], over.clone(), Err(32)),
        (over.clone(), vec![0x0b], Err(32)),
        (over, long_list, Err(32)),
        (cut_at_the_end(LONGEST_FILE + 1), vec![], Err(32)),
    ]
}

pub fn examples(comparison: &mut Comparison, _: &mut Random, _: Size) -> Compared {
    for (first, second, lines) in SAID {
        says(comparison, &from_hex(first), &from_hex(second), &Ok(lines.to_string()))?;
    }
    for (first, second, number) in REFUSED {
        says(comparison, &from_hex(first), &from_hex(second), &Err(number))?;
    }
    for (first, second, right) in longer() {
        says(comparison, &first, &second, &right)?;
    }
    Ok(())
}

fn says(comparison: &mut Comparison, first: &[u8], second: &[u8], right: &Lines) -> Compared {
    comparison.pair(first, second)?;
    match comparison.each_side(|this| this.lines_difference(first, second, right)) {
        None => Ok(()),
        Some(difference) => Err(other(format!("worked by hand:\n{}", show::pair(first, second)), difference)),
    }
}

// ** The reader of the lines

/// Lines that no comparison with the first message gives, whose voters are 1 and 2, whose learners 2 and 3, and whose flag is
/// set.
const NOT_SAID: [&str; 40] = [
    // no line, or not one to its end
    "\n",
    "1\n",
    "1 voters\n",
    "1 voters -> \n",
    "1 voters -> none",
    "1 voters -> none\n\n",
    "1 voters -> none\n2",
    "refused 28\n",
    // other spaces and arrows
    " 1 voters -> none\n",
    "1  voters -> none\n",
    "1 voters  -> none\n",
    "1 voters -> none \n",
    "1 voters->none\n",
    "1 voters -> none\r\n",
    "1 voters -> none -> learners\n",
    // no id, or not as it is written
    "x voters -> none\n",
    "-1 voters -> none\n",
    "+1 voters -> none\n",
    "01 voters -> none\n",
    "00 none -> voters\n",
    "18446744073709551616 none -> voters\n",
    // no set, sets in another order, twice, none among them
    "1 voters -> voter\n",
    "1 voters -> Learners\n",
    "2 learners+voters -> none\n",
    "1 voters -> learners+voters_outgoing\n",
    "1 voters -> learners+learners\n",
    "1 voters -> none+learners\n",
    "1 voters -> learners+\n",
    // the first message has it otherwise
    "1 none -> voters\n",
    "2 voters -> none\n",
    "4 voters -> none\n",
    "auto_leave false -> true\n",
    // the same on both sides
    "1 voters -> voters\n",
    "4 none -> none\n",
    "auto_leave true -> true\n",
    // not ascending, twice, behind the flag
    "3 learners -> none\n1 voters -> none\n",
    "1 voters -> none\n1 voters -> learners\n",
    "auto_leave true -> false\n1 voters -> none\n",
    "auto_leave true -> false\nauto_leave true -> false\n",
    "auto_leave 1 -> 0\n",
];

/// The reader of the lines states what they say, and refuses all else.
pub fn reader(_: &mut Comparison, random: &mut Random, _: Size) -> Compared {
    reads_back()?;
    WRONG_LINES.into_iter().try_for_each(|rule| tells_apart(random, rule))
}

fn reads_back() -> Compared {
    let first = Said::by(&from_hex("0a 02 01 02 12 02 02 03 28 01"));
    for text in NOT_SAID {
        if read_back(&first, text).is_ok() {
            return failed(&format!("the lines {text:?}"), "their reader takes them".to_string());
        }
    }
    let second = Said::by(&from_hex("0a 02 02 00 1a 01 02 10 02 20 03"));
    let lines = "0 none -> voters\n1 voters -> none\n2 voters+learners -> voters+voters_outgoing+learners\n\
                 3 learners -> learners_next\nauto_leave true -> false\n";
    let back = "0 voters -> none\n1 none -> voters\n2 voters+voters_outgoing+learners -> voters+learners\n\
                3 learners_next -> learners\nauto_leave false -> true\n";
    for (first, lines, second) in [(&first, lines, &second), (&second, back, &first), (&first, "", &first)] {
        match read_back(first, lines) {
            Ok(said) if said == *second => {}
            Ok(_) => return failed(&format!("the lines {lines:?}"), "their reader states other sets".to_string()),
            Err(why) => return failed(&format!("the lines {lines:?}"), format!("their reader refuses them: {why}")),
        }
    }
    match mirrored(lines).as_deref() == Some(back) {
        true => Ok(()),
        false => failed(&format!("the lines {lines:?}"), "left and right are not exchanged".to_string()),
    }
}

/// The wrong rules about the lines.
const WRONG_LINES: [Wrong; 11] = [
    Wrong::OrderCounts,
    Wrong::RepeatsCount,
    Wrong::ZeroIsNoId,
    Wrong::IdsDescending,
    Wrong::IdsAsTheyCome,
    Wrong::IdsOfTheFirstAlone,
    Wrong::OneSetKeptIsEnough,
    Wrong::LearnersBeforeOutgoing,
    Wrong::FirstSetAlone,
    Wrong::LeftSaidTwice,
    Wrong::FlagLineFirst,
];

/// Of every two messages of which a rule says other lines than the right ones, the reader tells: it refuses them, or states other
/// sets than the second's. And there are such messages.
fn tells_apart(random: &mut Random, rule: Wrong) -> Compared {
    let mut wrong = 0;
    related(random, Size::Quick, &mut |first, second| {
        let lines = compared(&Model::with(rule), first, second);
        if lines == right_lines(first, second) {
            return Ok(());
        }
        wrong += 1;
        match read_back(&Said::by(first), &lines.unwrap_or_default()) {
            Ok(said) if said == Said::by(second) => {
                failed(&show::pair(first, second), format!("the reader misses: {}", rule.sentence()))
            }
            _ => Ok(()),
        }
    })?;
    match wrong {
        0 => failed("random messages, a few ids moved", format!("none has wrong lines: {}", rule.sentence())),
        _ => Ok(()),
    }
}
