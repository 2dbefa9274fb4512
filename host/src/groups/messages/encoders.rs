//! The stored bytes of two encoders that nobody here wrote: samples/messages.txt, which says how it was made. Each line is a message with
//! what its encoder was told to write, or bytes that a decoder takes and document 02 refuses.

use super::other;
use crate::compare::messages::Reading;
use crate::compare::{Against, Compared, Comparison, Difference, Failure};
use crate::groups::Size;
use crate::message::written;
use crate::model::{self, Model};
use crate::random::Random;
use crate::words::{Block, ConfState, Ids};
use std::fs;

const FILE: &str = concat!(env!("CARGO_MANIFEST_DIR"), "/samples/messages.txt");

/// What a line begins with.
const KINDS: [&str; 3] = ["protoc", "rust-protobuf", "refused"];

/// A line: its kind, the bytes, and what they say.
struct Line {
    kind: usize,
    bytes: Vec<u8>,
    reading: Reading,
}

pub fn encoders(comparison: &mut Comparison, _: &mut Random, _: Size) -> Compared {
    let text = fs::read_to_string(FILE).map_err(|error| failure(FILE, format!("it cannot be read: {error}")))?;
    let (mut met, mut written_so) = ([0; KINDS.len()], 0);
    for (number, text) in (1..).zip(text.lines()).filter(|(_, text)| !text.is_empty() && !text.starts_with('#')) {
        let place = format!("line {number} of {FILE}: {text}");
        let line = line(text).ok_or_else(|| failure(&place, "it has another form".to_string()))?;
        met[line.kind] += 1;
        read(comparison, &line, &place)?;
        written_so += u64::from(write(comparison, &line)?);
    }
    let lines: Vec<String> = KINDS.iter().zip(met).map(|(kind, count)| format!("{kind} {count}")).collect();
    comparison.remark = format!("lines of {}; {written_so} of protoc's are what we write", lines.join(", "));
    match met.contains(&0) || written_so == 0 {
        false => Ok(()),
        true => Err(failure(FILE, format!("{}: none may be 0", comparison.remark))),
    }
}

fn failure(input: &str, what: String) -> Box<Failure> {
    other(input.to_string(), Difference { against: Against::Paper, what })
}

/// Each side reads what the line says.
fn read(comparison: &mut Comparison, line: &Line, place: &str) -> Compared {
    comparison.message(&line.bytes)?;
    match comparison.each_side(|this| this.reading_difference(&line.bytes, &line.reading)) {
        None => Ok(()),
        Some(difference) => Err(other(place.to_string(), difference)),
    }
}

/// Whether the line is of protoc and its bytes are the one encoding: these are then written from its lists, by each side.
fn write(comparison: &mut Comparison, line: &Line) -> Result<bool, Box<Failure>> {
    let lists = &line.reading.lists;
    let the_one = KINDS[line.kind] == "protoc" && written(&Model::PAPER, &model::ConfState::used(lists)) == line.bytes;
    if the_one {
        comparison.lists(lists)?;
    }
    Ok(the_one)
}

// ** A line

/// `ENCODER HEX VOTERS LEARNERS VOTERS_OUTGOING LEARNERS_NEXT FLAG`, or `refused NUMBER HEX`.
fn line(text: &str) -> Option<Line> {
    let words: Vec<&str> = text.split(' ').collect();
    let kind = KINDS.iter().position(|kind| *kind == words[0])?;
    let mut lists = Box::new(ConfState::zero());
    let (number, bytes) = match words[1..] {
        [number, bytes] if KINDS[kind] == "refused" => (number.parse().ok()?, bytes),
        [bytes, ref said @ .., flag] if KINDS[kind] != "refused" && said.len() == 4 => {
            for (list, said) in lists.lists_mut().into_iter().zip(said) {
                *list = ids(said)?;
            }
            lists.auto_leave = ["0", "1"].iter().position(|known| *known == flag)? as u64;
            (0, bytes)
        }
        _ => return None,
    };
    Some(Line { kind, bytes: from_hex(bytes)?, reading: Reading { number, lists } })
}

/// Ids joined by `,`, or `-`.
fn ids(text: &str) -> Option<Ids> {
    if text == "-" {
        return Some(Ids::zero());
    }
    let ids: Vec<u64> = text.split(',').map(|id| id.parse().ok()).collect::<Option<_>>()?;
    Some(Ids::of(&ids))
}

/// Bytes in hex, or `-`.
fn from_hex(text: &str) -> Option<Vec<u8>> {
    if text == "-" {
        return Some(vec![]);
    }
    let pairs = text.as_bytes().chunks(2).map(|pair| std::str::from_utf8(pair).ok().filter(|pair| pair.len() == 2));
    pairs.map(|pair| u8::from_str_radix(pair?, 16).ok()).collect()
}
