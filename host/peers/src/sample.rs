//! The stored sample, host/samples/messages.txt: bytes of both encoders, and bytes that one takes and document 02 refuses. A
//! run makes it again and compares.

use crate::check::{Group, Tally};
use crate::message::{hex, Message};
use crate::random::Random;
use crate::{protoc, rust_protobuf, table};
use std::fs;

const STORED: &str = concat!(env!("CARGO_MANIFEST_DIR"), "/../samples/messages.txt");

/// The random ones of the sample are always the same.
const SEED: u64 = 2026;

fn messages() -> Vec<Message> {
    let of = |voters: &[u64]| Message { lists: [voters.to_vec(), vec![], vec![], vec![]], flag: false };
    let all = |ids: &[u64], flag| Message { lists: [(); 4].map(|()| ids.to_vec()), flag };
    let ids = |first: u64, count: u64| (0..count).map(|place| first + place).collect::<Vec<u64>>();
    let mut messages = vec![
        Message::default(),
        Message { flag: true, ..Message::default() },
        of(&[0]),
        of(&[1]),
        of(&[3, 2, 1, 2, 3]),
        of(&ids(1, 5)),
        Message { lists: [vec![1, 2, 300], vec![5], vec![], vec![]], flag: true },
        Message { lists: [vec![1, 2, 3], vec![], vec![1, 2, 4], vec![4]], flag: true },
        all(&[0], false),
        all(&[1], true),
        // each length of a number: the largest of n bytes and the least of n + 1
        of(&(1..=9).flat_map(|bytes| [(1 << (7 * bytes)) - 1, 1 << (7 * bytes)]).collect::<Vec<_>>()),
        of(&[u64::MAX]),
        of(&[1 << 32, 1 << 63, u64::MAX - 1, 0]),
        // a length of one byte, and of two
        of(&[vec![1 << 7; 63], vec![1]].concat()),
        of(&[1 << 7; 64]),
        of(&ids(1, 63)),
        of(&ids(1, 64)),
        of(&ids(1 << 63, 64)),
        all(&ids(1, 64), false),
        all(&[u64::MAX; 64], true),
    ];
    for list in 1..4 {
        let mut message = Message::default();
        message.lists[list] = ids(list as u64, 3);
        messages.push(message);
    }
    let mut random = Random::new(SEED);
    while messages.len() < 36 {
        messages.push(random.message());
    }
    messages
}

fn lines() -> Result<Vec<String>, String> {
    let digits = |bytes: &[u8]| if bytes.is_empty() { "-".to_string() } else { hex(bytes) };
    let messages = messages();
    let mut lines = vec![];
    for (packed, message) in protoc::write(&messages)?.iter().zip(&messages) {
        lines.push(format!("protoc {} {message}", digits(packed)));
        lines.push(format!("rust-protobuf {} {message}", digits(&rust_protobuf::write(message))));
    }
    lines.extend(table::refused().iter().map(|(number, bytes)| format!("refused {number} {}", digits(bytes))));
    Ok(lines)
}

pub fn print() -> Result<(), String> {
    for line in lines()? {
        println!("{line}");
    }
    Ok(())
}

pub fn compare(tally: &mut Tally) -> Result<(), String> {
    let stored = fs::read_to_string(STORED).map_err(|error| format!("{STORED} cannot be read: {error}"))?;
    let stored: Vec<&str> = stored.lines().filter(|line| !line.is_empty() && !line.starts_with('#')).collect();
    let made = lines()?;
    let mut group = Group::new("the stored sample is what the encoders write");
    group.holds(&[], made.len() == stored.len(), || format!("it has {} lines, and {} are made", stored.len(), made.len()));
    for (stored, made) in stored.iter().zip(&made) {
        group.holds(made.as_bytes(), stored == made, || format!("it has {stored}\n  and made is {made}"));
    }
    tally.add(group);
    Ok(())
}
