//! A message, and the pieces of its encodings, from the public Protocol Buffers encoding document.

use std::fmt;

/// Four lists of ids in the order of their fields (voters, learners, voters_outgoing, learners_next), and the flag auto_leave.
#[derive(Clone, Debug, Default, PartialEq, Eq)]
pub struct Message {
    pub lists: [Vec<u64>; 4],
    pub flag: bool,
}

/// What a reader makes of bytes: the message, or why there is none.
pub type Answer = Result<Message, String>;

pub const NAMES: [&str; 4] = ["voters", "learners", "voters_outgoing", "learners_next"];

/// The form of the stored sample: the four lists and the flag.
impl fmt::Display for Message {
    fn fmt(&self, to: &mut fmt::Formatter) -> fmt::Result {
        for list in &self.lists {
            let ids: Vec<String> = list.iter().map(u64::to_string).collect();
            write!(to, "{} ", if ids.is_empty() { "-".to_string() } else { ids.join(",") })?;
        }
        write!(to, "{}", u8::from(self.flag))
    }
}

// ** The wire

pub const VARINT: u64 = 0;
pub const FIXED64: u64 = 1;
pub const LENGTH: u64 = 2;
pub const FIXED32: u64 = 5;

pub const FLAG: u64 = 5;
pub const LAST_FIELD: u64 = (1 << 29) - 1;
pub const LONGEST_VARINT: usize = 10;

/// A number, in at least so many bytes: the shortest form, and then sevens of zeros.
pub fn varint(mut number: u64, bytes: usize) -> Vec<u8> {
    let mut all = vec![];
    while number > 127 || all.len() + 1 < bytes {
        all.push((number & 127) as u8 | 128);
        number >>= 7;
    }
    all.push(number as u8);
    all
}

pub fn tag(field: u64, wire_type: u64) -> Vec<u8> {
    varint(field << 3 | wire_type, 1)
}

/// What rust-protobuf writes: each number of each list under a tag of its own.
pub fn singly(message: &Message) -> Vec<u8> {
    let mut all = vec![];
    for (list, field) in message.lists.iter().zip(1..) {
        for id in list {
            all.extend(tag(field, VARINT));
            all.extend(varint(*id, 1));
        }
    }
    if message.flag {
        all.extend(tag(FLAG, VARINT));
        all.push(1);
    }
    all
}

pub fn hex(bytes: &[u8]) -> String {
    bytes.iter().map(|byte| format!("{byte:02x}")).collect()
}
