//! The live run: random messages through the three, in every direction.

use crate::message::{hex, singly, Answer, Message};
use crate::random::{Field, Random};
use crate::{ours, protoc, rust_protobuf, sample, table};

const MESSAGES: usize = 4000;
const DAMAGES: usize = 5;

/// protoc takes a process for each message that it may refuse.
const ASKED_SINGLY: usize = 100;

/// A group of inputs: how many there were, how many differ, and the shortest of these.
pub struct Group {
    name: String,
    inputs: usize,
    faults: usize,
    shortest: Option<(usize, String)>,
}

impl Group {
    pub fn new(name: &str) -> Group {
        Group { name: name.to_string(), inputs: 0, faults: 0, shortest: None }
    }

    pub fn hold(&mut self, bytes: &[u8], expected: &Answer, answer: &Answer) {
        self.holds(bytes, expected == answer, || format!("{}, and should be {}", show(answer), show(expected)));
    }

    pub fn holds(&mut self, bytes: &[u8], good: bool, words: impl FnOnce() -> String) {
        self.inputs += 1;
        if good {
            return;
        }
        self.faults += 1;
        if self.shortest.as_ref().is_none_or(|(length, _)| bytes.len() < *length) {
            self.shortest = Some((bytes.len(), format!("{}: {}", hex(bytes), words())));
        }
    }
}

fn show(answer: &Answer) -> String {
    answer.as_ref().map_or_else(String::clone, |message| format!("({message})"))
}

/// Groups that passed, and that did not.
#[derive(Default)]
pub struct Tally {
    passed: usize,
    failed: usize,
}

impl Tally {
    pub fn add(&mut self, group: Group) {
        match &group.shortest {
            None if group.inputs > 0 => {
                self.passed += 1;
                println!("passed  {}: {}", group.name, group.inputs);
            }
            None => {
                self.failed += 1;
                println!("FAILED  {}: there was nothing to test", group.name);
            }
            Some((_, words)) => {
                self.failed += 1;
                println!("FAILED  {}: {} of {}; the shortest:\n  {words}", group.name, group.faults, group.inputs);
            }
        }
    }
}

/// Everything; whether all passed.
pub fn run(seed: u64) -> bool {
    let version = protoc::version().unwrap_or_else(|words| words);
    println!("{} beside {version} and rust-protobuf {}, seed {seed}", ours::CODE, rust_protobuf::VERSION);
    let mut tally = Tally::default();
    if let Err(words) = groups(&mut tally, seed) {
        tally.failed += 1;
        println!("FAILED  and what follows did not run: {words}");
    }
    println!("{} passed, {} failed", tally.passed, tally.failed);
    tally.failed == 0
}

/// `Err`: protoc does not do its part, or a file is not there.
fn groups(tally: &mut Tally, seed: u64) -> Result<(), String> {
    let mut random = Random::new(seed);
    let messages: Vec<Message> = (0..MESSAGES).map(|_| random.message()).collect();
    let written = written_by_ours(tally, &messages);
    written_by_others(tally, &messages, &written)?;
    made_by_hand(tally, &mut random, &messages);
    cut(tally, &mut random, &messages)?;
    shortest_strings(tally);
    table::run(tally)?;
    sample::compare(tally)
}

// ** Every message, both ways

fn written_by_ours(tally: &mut Tally, messages: &[Message]) -> Vec<Vec<u8>> {
    let mut group = Group::new("written by ours, each");
    let mut all = vec![];
    for message in messages {
        let written = ours::write(message);
        group.holds(&[], written.is_ok(), || format!("({message}): {written:?}"));
        all.push(written.unwrap_or_default());
    }
    tally.add(group);
    read_by(rust_protobuf::read, tally, "written by ours, read by rust-protobuf", &all, messages);
    read_by_protoc(tally, "written by ours, read by protoc", &all, messages);
    all
}

fn written_by_others(tally: &mut Tally, messages: &[Message], by_ours: &[Vec<u8>]) -> Result<(), String> {
    let single: Vec<Vec<u8>> = messages.iter().map(rust_protobuf::write).collect();
    read_by(ours::read, tally, "written by rust-protobuf, read by ours", &single, messages);
    let mut group = Group::new("written by rust-protobuf: each number singly");
    for (bytes, message) in single.iter().zip(messages) {
        group.holds(bytes, *bytes == singly(message), || "these bytes are of another form".to_string());
    }
    tally.add(group);
    let packed = protoc::write(messages)?;
    read_by(ours::read, tally, "written by protoc, read by ours", &packed, messages);
    let mut group = Group::new("written by protoc: ours, byte for byte");
    for (bytes, ours) in packed.iter().zip(by_ours) {
        group.holds(bytes, bytes == ours, || format!("ours are {}", hex(ours)));
    }
    tally.add(group);
    Ok(())
}

fn read_by(reader: fn(&[u8]) -> Answer, tally: &mut Tally, name: &str, encoded: &[Vec<u8>], messages: &[Message]) {
    let mut group = Group::new(name);
    for (bytes, message) in encoded.iter().zip(messages) {
        group.hold(bytes, &Ok(message.clone()), &reader(bytes));
    }
    tally.add(group);
}

/// Messages that protoc has to take; all at once, so of one that it refuses it does not say which.
fn read_by_protoc(tally: &mut Tally, name: &str, encoded: &[Vec<u8>], messages: &[Message]) {
    let mut group = Group::new(name);
    match protoc::read(encoded) {
        Ok(all) => {
            for ((bytes, message), read) in encoded.iter().zip(messages).zip(all) {
                group.hold(bytes, &Ok(message.clone()), &Ok(read));
            }
        }
        Err(words) => group.holds(&[], false, || format!("protoc says of them together: {words}")),
    }
    tally.add(group);
}

// ** Encodings that no encoder writes

fn whole(fields: &[Field]) -> Vec<u8> {
    fields.iter().flat_map(|field| field.bytes.clone()).collect()
}

fn made_by_hand(tally: &mut Tally, random: &mut Random, messages: &[Message]) {
    let encoded: Vec<Vec<u8>> = messages.iter().map(|message| whole(&random.fields(message))).collect();
    read_by(ours::read, tally, "made by hand, read by ours", &encoded, messages);
    read_by(rust_protobuf::read, tally, "made by hand, read by rust-protobuf", &encoded, messages);
    read_by_protoc(tally, "made by hand, read by protoc", &encoded, messages);
    damaged(tally, random, &encoded);
}

/// One byte is another: what ours still takes rust-protobuf takes too, with the same lists. It looks at 32 bits of a flag.
fn damaged(tally: &mut Tally, random: &mut Random, encoded: &[Vec<u8>]) {
    let mut group = Group::new("made by hand and a byte changed: taken by ours, read by rust-protobuf");
    for bytes in encoded.iter().filter(|bytes| !bytes.is_empty()) {
        for _ in 0..DAMAGES {
            let bytes = random.damaged(bytes);
            let (Ok(ours), rust) = (ours::read(&bytes), rust_protobuf::read(&bytes)) else { continue };
            let good = rust.as_ref().is_ok_and(|rust| rust.lists == ours.lists && rust.flag <= ours.flag);
            group.holds(&bytes, good, || format!("ours gives ({ours}), rust-protobuf {}", show(&rust)));
        }
    }
    tally.add(group);
}

/// Every front part of some: ours takes it, and then the others take the same, or it is cut short. rust-protobuf then refuses
/// it too, but for a packed list, of which it may take what is there.
fn cut(tally: &mut Tally, random: &mut Random, messages: &[Message]) -> Result<(), String> {
    let mut group = Group::new("cut anywhere, ours beside rust-protobuf");
    let (mut taken, mut as_read, mut cut_short) = (vec![], vec![], vec![]);
    for message in messages.iter().filter(|message| message.lists.iter().all(|list| list.len() < 8)) {
        let fields = random.fields(message);
        let bytes = whole(&fields);
        let mut in_packed_list = vec![];
        for field in &fields {
            in_packed_list.resize(in_packed_list.len() + field.bytes.len(), field.packed_list);
        }
        for end in 0..bytes.len() {
            let (ours, rust) = (ours::read(&bytes[..end]), rust_protobuf::read(&bytes[..end]));
            let good = match &ours {
                Ok(_) => ours == rust,
                Err(number) => number == "28" && (rust.is_err() || in_packed_list[end]),
            };
            group.holds(&bytes[..end], good, || format!("ours gives {}, rust-protobuf {}", show(&ours), show(&rust)));
            match ours {
                Ok(message) => {
                    taken.push(bytes[..end].to_vec());
                    as_read.push(message);
                }
                Err(_) => cut_short.push(bytes[..end].to_vec()),
            }
        }
    }
    tally.add(group);
    read_by_protoc(tally, "cut anywhere and taken by ours, read by protoc", &taken, &as_read);
    let mut group = Group::new("cut anywhere and refused by ours, refused by protoc");
    for bytes in cut_short.iter().step_by(cut_short.len() / ASKED_SINGLY + 1) {
        group.hold(bytes, &Err("refused".to_string()), &protoc::read_one(bytes)?);
    }
    tally.add(group);
    Ok(())
}

/// Every string of up to two bytes: what ours takes the others take, and the same; what ours refuses rust-protobuf refuses but
/// for groups that it skips and packed lists that are cut.
fn shortest_strings(tally: &mut Tally) {
    let one = (0..=u8::MAX).map(|byte| vec![byte]);
    let two = (0..=u16::MAX).map(|both| both.to_be_bytes().to_vec());
    let mut group = Group::new("every string of up to two bytes, ours beside rust-protobuf");
    let (mut taken, mut as_read) = (vec![], vec![]);
    for bytes in [vec![]].into_iter().chain(one).chain(two) {
        let (ours, rust) = (ours::read(&bytes), rust_protobuf::read(&bytes));
        let good = match (&ours, &rust) {
            (Ok(ours), Ok(rust)) => ours == rust,
            (Ok(_), Err(_)) => false,
            (Err(number), Err(_)) => number == "28" || number == "29",
            (Err(number), Ok(read)) => *read == Message::default() && *number == table::lax_in_two_bytes(&bytes),
        };
        group.holds(&bytes, good, || format!("ours gives {}, rust-protobuf {}", show(&ours), show(&rust)));
        if let Ok(message) = ours {
            taken.push(bytes);
            as_read.push(message);
        }
    }
    tally.add(group);
    read_by_protoc(tally, "every such string that ours takes, read by protoc", &taken, &as_read);
}
