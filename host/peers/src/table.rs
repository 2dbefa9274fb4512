//! Where an encoder is laxer or stricter than document 02, each with an input that no shorter one of its kind replaces. Each
//! row is asked of all three, and README.md has to have it.

use crate::check::{Group, Tally};
use crate::message::{Answer, Message, NAMES};
use crate::{ours, protoc, rust_protobuf};
use std::fs;

/// What is said of a row's bytes: `refused`, a number of document 02, or the message that is read.
#[derive(Clone, Copy)]
enum Says {
    Refused,
    Number(u64),
    Empty,
    Flag,
    Voters(u64, usize),
}

use Says::{Empty, Flag, Number, Refused, Voters};

struct Row {
    what: &'static str,
    bytes: Vec<u8>,
    protoc: Says,
    rust: Says,
    paper: Says,
}

/// Bytes as hex digits, with `*N` for a byte that comes N times.
fn bytes(shown: &str) -> Vec<u8> {
    let mut all = vec![];
    for word in shown.split(' ') {
        let (digits, times) = word.split_once('*').unwrap_or((word, "1"));
        let byte = u8::from_str_radix(digits, 16).expect("two digits");
        all.extend(vec![byte; times.parse().expect("a number")]);
    }
    all
}

fn shown(bytes: &[u8]) -> String {
    let words = bytes.chunk_by(|one, next| one == next).flat_map(|run| match run.len() {
        1..=4 => vec![format!("{:02x}", run[0]); run.len()],
        times => vec![format!("{:02x}*{times}", run[0])],
    });
    words.collect::<Vec<_>>().join(" ")
}

fn rows() -> Vec<Row> {
    let row = |what, shown, protoc, rust, paper| Row { what, bytes: bytes(shown), protoc, rust, paper };
    vec![
        row("a packed list shorter than its length", "0a 01", Refused, Empty, Number(28)),
        row("the same, and a number there", "0a 02 01", Refused, Voters(1, 1), Number(28)),
        row("an unknown field's length, 2^32", "32 80 80 80 80 10", Refused, Empty, Number(28)),
        row("a packed number past its field's end", "0a 01 80", Refused, Refused, Number(28)),
        row("the same, and a field after it", "0a 01 80 08 01", Refused, Refused, Number(28)),
        row("cut after a tag", "08", Refused, Refused, Number(28)),
        row("an unknown field shorter than its length", "32 01", Refused, Refused, Number(28)),
        row("a number of ten bytes over 64 bits", "08 80*9 02", Voters(0, 1), Voters(0, 1), Number(29)),
        row("a flag of ten bytes over 64 bits", "28 80*9 02", Empty, Empty, Number(29)),
        row("a length of ten bytes over 64 bits", "0a 80*9 02", Refused, Empty, Number(29)),
        row("a tag of ten bytes over 64 bits", "88 80*8 02 00", Refused, Voters(0, 1), Number(29)),
        row("a number of eleven bytes", "08 80*10 00", Refused, Refused, Number(29)),
        row("field number 0", "00 00", Refused, Refused, Number(29)),
        row("field number 2^29", "80 80 80 80 10 00", Refused, Refused, Number(29)),
        row("field number 2^29 + 1", "88 80 80 80 10 00", Voters(0, 1), Voters(0, 1), Number(29)),
        row("field number 2^32 + 1", "88 80 80 80 80 01 00", Refused, Voters(0, 1), Number(29)),
        row("a group under an unknown number", "33 34", Empty, Empty, Number(29)),
        row("a group under a known number", "0b 0c", Empty, Refused, Number(29)),
        row("a group within a group", "33 3b 3c 34", Empty, Refused, Number(29)),
        row("a group ended by another number", "33 0c", Refused, Empty, Number(29)),
        row("a group that does not end", "33", Refused, Refused, Number(29)),
        row("the end of no group", "34", Refused, Refused, Number(29)),
        row("wire type 6", "36", Refused, Refused, Number(29)),
        row("wire type 7", "37", Refused, Refused, Number(29)),
        row("a list under wire type 1", "09 00*8", Empty, Refused, Number(29)),
        row("a list under wire type 5", "0d 00 00 00 00", Empty, Refused, Number(29)),
        row("the flag under wire type 2", "2a 00", Empty, Refused, Number(29)),
        row("a list of 65, packed", "0a 41 00*65", Voters(0, 65), Voters(0, 65), Number(30)),
        row("the flag 2", "28 02", Flag, Flag, Flag),
        row("the flag 2^32", "28 80 80 80 80 10", Flag, Empty, Flag),
        row("a tag of five bytes", "88 80 80 80 00 00", Voters(0, 1), Voters(0, 1), Voters(0, 1)),
        row("a tag of six bytes", "88 80 80 80 80 00 00", Refused, Voters(0, 1), Voters(0, 1)),
        row("a length of five bytes", "0a 80 80 80 80 00", Empty, Empty, Empty),
        row("a length of six bytes", "0a 80*5 00", Refused, Empty, Empty),
    ]
}

impl Says {
    fn answer(self) -> Answer {
        let mut message = Message::default();
        match self {
            Refused => return Err("refused".to_string()),
            Number(number) => return Err(number.to_string()),
            Empty => (),
            Flag => message.flag = true,
            Voters(id, times) => message.lists[0] = vec![id; times],
        }
        Ok(message)
    }

    fn words(self) -> String {
        match self {
            Refused => "refuses".to_string(),
            Number(number) => number.to_string(),
            Empty => "no id, no flag".to_string(),
            Flag => "the flag".to_string(),
            Voters(id, 1) => format!("{} {id}", NAMES[0]),
            Voters(id, times) => format!("{} {id}, {times} times", NAMES[0]),
        }
    }
}

impl Row {
    /// As README.md has it.
    fn line(&self) -> String {
        let [protoc, rust, paper] = [self.protoc, self.rust, self.paper].map(Says::words);
        format!("| {} | `{}` | {protoc} | {rust} | {paper} |", self.what, shown(&self.bytes))
    }

    fn differs(&self) -> bool {
        let paper = self.paper.answer();
        [self.protoc, self.rust].iter().any(|says| says.answer().ok() != paper.as_ref().ok().cloned())
    }
}

pub fn run(tally: &mut Tally) -> Result<(), String> {
    let page = format!("{}/README.md", env!("CARGO_MANIFEST_DIR"));
    let page = fs::read_to_string(&page).map_err(|error| format!("{page} cannot be read: {error}"))?;
    let mut stands = Group::new("README.md has each of these, and none besides");
    let in_page = page.lines().filter(|line| line.starts_with("| ") && line.contains(" | `")).count();
    stands.holds(&[], in_page == rows().len(), || format!("it has {in_page}, and there are {}", rows().len()));
    for row in rows() {
        let sign = if row.differs() { "differ" } else { "agree" };
        let mut group = Group::new(&format!("{}, {}: they {sign}", shown(&row.bytes), row.what));
        group.hold(&row.bytes, &row.paper.answer(), &ours::read(&row.bytes));
        group.hold(&row.bytes, &row.rust.answer(), &rust_protobuf::read(&row.bytes));
        group.hold(&row.bytes, &row.protoc.answer(), &protoc::read_one(&row.bytes)?);
        tally.add(group);
        stands.holds(&row.bytes, page.lines().any(|line| line == row.line()), || format!("not there: {}", row.line()));
    }
    tally.add(stands);
    let mut kept = Group::new("an unknown field is kept by rust-protobuf, and written again");
    let unknown = bytes("30 07");
    let again = rust_protobuf::read_and_write(&unknown);
    kept.holds(&unknown, again == Some(unknown.clone()), || format!("it writes {again:?}"));
    tally.add(kept);
    Ok(())
}

pub fn print() {
    for row in rows() {
        println!("{}", row.line());
    }
}

/// What an encoder takes and document 02 refuses, with its number.
pub fn refused() -> Vec<(u64, Vec<u8>)> {
    let mut all = vec![];
    for row in rows() {
        if let (Number(number), true) = (row.paper, row.differs()) {
            all.push((number, row.bytes));
        }
    }
    all
}

/// Of two bytes that rust-protobuf takes and document 02 does not, the number that these get: a packed list that is not there
/// is cut short, an unknown group and any end are 29.
pub fn lax_in_two_bytes(bytes: &[u8]) -> String {
    match bytes {
        [0x0a | 0x12 | 0x1a | 0x22, 1..=0x7f] => "28".to_string(),
        [start, end] if start & 7 == 3 && start >> 3 > 5 && end & 7 == 4 => "29".to_string(),
        _ => "0".to_string(),
    }
}
