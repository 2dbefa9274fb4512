//! Random messages, and encodings of them that no encoder writes, from a seed: splitmix64.

use crate::message::{tag, varint, Message, FIXED32, FIXED64, FLAG, LAST_FIELD, LENGTH, LONGEST_VARINT, VARINT};

pub struct Random {
    state: u64,
}

impl Random {
    pub fn new(seed: u64) -> Random {
        Random { state: seed }
    }

    fn next(&mut self) -> u64 {
        self.state = self.state.wrapping_add(0x9e37_79b9_7f4a_7c15);
        let mut mixed = self.state;
        mixed = (mixed ^ (mixed >> 30)).wrapping_mul(0xbf58_476d_1ce4_e5b9);
        mixed = (mixed ^ (mixed >> 27)).wrapping_mul(0x94d0_49bb_1331_11eb);
        mixed ^ (mixed >> 31)
    }

    /// Below `end`, which is not 0.
    fn below(&mut self, end: usize) -> usize {
        (self.next() % end as u64) as usize
    }

    fn one_in(&mut self, times: usize) -> bool {
        self.below(times) == 0
    }

    /// Of every size from nothing to 64 bits.
    fn number(&mut self) -> u64 {
        match self.below(65) {
            64 => 0,
            shift => self.next() >> shift,
        }
    }

    // ** Messages

    pub fn message(&mut self) -> Message {
        Message { lists: [(); 4].map(|()| self.list()), flag: self.one_in(2) }
    }

    fn list(&mut self) -> Vec<u64> {
        let length = match self.below(6) {
            0 | 1 => 0,
            2 | 3 => self.below(8),
            4 => self.below(65),
            _ => 64,
        };
        let kind = self.below(5);
        let mut ids: Vec<u64> = vec![];
        for place in 0..length {
            let id = match kind {
                0 => place as u64 + 1,
                1 => (1 << 32) + self.next() % 8,
                2 => (1 << 63) + self.number() / 2,
                3 if place > 0 && !self.one_in(3) => ids[self.below(place)],
                4 if self.one_in(3) => 0,
                _ => self.number(),
            };
            ids.push(id);
        }
        ids
    }

    // ** Encodings

    /// The fields of an encoding: each list split anyhow over packed and single fields, all in any order, the flag given several
    /// times, unknown fields between. Tags and lengths have at most the five bytes that protoc takes, numbers any form.
    pub fn fields(&mut self, message: &Message) -> Vec<Field> {
        let mut places = [0; 4];
        let mut all = vec![];
        loop {
            self.unknown(&mut all);
            let left: Vec<usize> = (0..4).filter(|&list| places[list] < message.lists[list].len()).collect();
            if left.is_empty() {
                break;
            }
            let list = left[self.below(left.len())];
            let (field, taken) = self.part(list as u64 + 1, &message.lists[list][places[list]..]);
            places[list] += taken;
            all.push(field);
        }
        if message.flag || self.one_in(2) {
            self.flags(&mut all, message.flag);
        }
        all
    }

    /// The next ids of a list in one field, and how many.
    fn part(&mut self, number: u64, rest: &[u64]) -> (Field, usize) {
        if self.one_in(2) {
            let value = self.padded(rest[0]);
            return (self.field(number, VARINT, &value), 1);
        }
        let taken = self.below(rest.len() + 1);
        let payload: Vec<u8> = rest[..taken].iter().flat_map(|&id| self.padded(id)).collect();
        (self.length_delimited(number, &payload), taken)
    }

    /// Perhaps an unknown field.
    fn unknown(&mut self, all: &mut Vec<Field>) {
        if !self.one_in(3) {
            return;
        }
        let number = (FLAG + 1 + self.number() % LAST_FIELD).min(LAST_FIELD);
        let value = self.number();
        let field = match self.below(4) {
            0 => self.field(number, VARINT, &varint(value, 1)),
            1 => self.field(number, FIXED64, &value.to_le_bytes()),
            2 => {
                let bytes: Vec<u8> = (0..self.below(20)).map(|_| self.next() as u8).collect();
                self.length_delimited(number, &bytes)
            }
            _ => self.field(number, FIXED32, &(value as u32).to_le_bytes()),
        };
        all.push(field);
    }

    /// One to three flags among the fields: the last one decides.
    fn flags(&mut self, all: &mut Vec<Field>, decided: bool) {
        let mut places: Vec<usize> = (0..1 + self.below(3)).map(|_| self.below(all.len() + 1)).collect();
        places.sort();
        let mut set = decided;
        for place in places.into_iter().rev() {
            let value = if set { self.flag() } else { 0 };
            let field = self.field(FLAG, VARINT, &varint(value, 1));
            all.insert(place, field);
            set = self.one_in(2);
        }
    }

    /// A flag that is set, in one of its forms: rust-protobuf takes only 32 bits of it.
    fn flag(&mut self) -> u64 {
        if self.one_in(2) {
            return 1;
        }
        self.next() % u64::from(u32::MAX) + 1
    }

    /// With one byte changed.
    pub fn damaged(&mut self, bytes: &[u8]) -> Vec<u8> {
        let mut bytes = bytes.to_vec();
        let place = self.below(bytes.len());
        bytes[place] ^= 1 + self.below(255) as u8;
        bytes
    }

    fn field(&mut self, number: u64, wire_type: u64, value: &[u8]) -> Field {
        let mut bytes = tag(number, wire_type);
        if self.one_in(8) {
            bytes = varint(number << 3 | wire_type, 1 + self.below(5));
        }
        bytes.extend(value);
        Field { bytes, packed_list: wire_type == LENGTH && number < FLAG }
    }

    fn length_delimited(&mut self, number: u64, payload: &[u8]) -> Field {
        let bytes = if self.one_in(8) { 1 + self.below(5) } else { 1 };
        let mut value = varint(payload.len() as u64, bytes);
        value.extend(payload);
        self.field(number, LENGTH, &value)
    }

    fn padded(&mut self, id: u64) -> Vec<u8> {
        let bytes = if self.one_in(8) { 1 + self.below(LONGEST_VARINT) } else { 1 };
        varint(id, bytes)
    }
}

/// A field of an encoding, and whether it is a list that is packed.
pub struct Field {
    pub bytes: Vec<u8>,
    pub packed_list: bool,
}
