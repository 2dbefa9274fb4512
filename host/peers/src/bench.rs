//! Times the entries and rust-protobuf on the same messages. Ours reads into words that are lent, and writes into a buffer that
//! is lent; rust-protobuf reads into a new ConfState, by `parse_from_bytes`, and writes by `write_to_bytes` and into a Vec that
//! is kept. Times are of the processor, so that other programs on the machine do not count; the shortest of many batches is
//! shown.

use crate::message::{singly, Message};
use crate::timing::{processor, time, Time};
use crate::{ours, rust_protobuf};
use protobuf::Message as _;
use rust_protobuf::ConfState;
use std::hint::black_box;

pub fn run() -> Result<(), String> {
    println!("{} beside rust-protobuf {}, on {}", ours::CODE, rust_protobuf::VERSION, processor());
    println!("{:66}{:>16}{:>12}{:>8}", "", "rust-protobuf", "ours", "ratio");
    let voters: [(&str, Vec<u64>); 3] = [
        ("5 voters, 1 to 5", (1..=5).collect()),
        ("64 voters, 1 to 64", (1..=64).collect()),
        ("64 voters of ten bytes, 2^63 + 1 to 2^63 + 64", (1..=64).map(|id| (1 << 63) + id).collect()),
    ];
    for (name, ids) in voters {
        let message = Message { lists: [ids, vec![], vec![], vec![]], flag: false };
        reads(name, "packed", &message, &ours::write(&message)?)?;
        reads(name, "single", &message, &singly(&message))?;
        writes(name, &message)?;
    }
    Ok(())
}

fn reads(name: &str, form: &str, message: &Message, bytes: &[u8]) -> Result<(), String> {
    if ours::read(bytes).as_ref() != Ok(message) || rust_protobuf::read(bytes).as_ref() != Ok(message) {
        return Err(format!("{name}, {form}: it is not read as it was written"));
    }
    let mut words = [0; ours::CONF_STATE];
    let ours = time(1, || {
        black_box(ours::read_entry(black_box(bytes), &mut words));
        black_box(&words);
    });
    let rust = time(1, || {
        let _ = black_box(ConfState::parse_from_bytes(black_box(bytes)));
    });
    report(&format!("read {form}, {name}"), rust, ours);
    Ok(())
}

fn writes(name: &str, message: &Message) -> Result<(), String> {
    let (words, value) = (ours::words(message), rust_protobuf::value(message));
    let mut bytes = [0; ours::LONGEST];
    let ours = time(1, || {
        black_box(ours::write_entry(black_box(&words), &mut bytes));
        black_box(&bytes);
    });
    let to_new = time(1, || {
        let _ = black_box(black_box(&value).write_to_bytes());
    });
    let mut kept = vec![];
    let to_kept = time(1, || {
        kept.clear();
        let _ = black_box(black_box(&value).write_to_vec(&mut kept));
        black_box(&kept);
    });
    if kept != singly(message) {
        return Err(format!("{name}: rust-protobuf wrote something else"));
    }
    report(&format!("write, {name}"), to_new, ours);
    report(&format!("write into a kept Vec, {name}"), to_kept, ours);
    Ok(())
}

fn report(name: &str, rust: Time, ours: Time) {
    println!("{name:66}{rust:>13.1} ns{ours:>9.1} ns{:>8.2}", ours / rust);
}
