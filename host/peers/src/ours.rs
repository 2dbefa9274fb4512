//! The two entries of the proved library.

use crate::message::{Answer, Message};

mod c {
    extern "C" {
        pub fn dimecandle_read_conf_state(bytes: *const u8, bytes_len: usize, conf_state: *mut u64, conf_state_len: usize)
            -> u64;
        pub fn dimecandle_write_conf_state(
            conf_state: *const u64,
            conf_state_len: usize,
            bytes: *mut u8,
            bytes_len: usize,
        ) -> u64;
    }
}

/// A CONFSTATE (docs/EMBEDDING.md): four lists, each 64 ids and a count, and the flag.
const LIST: usize = 65;
pub const CONF_STATE: usize = 4 * LIST + 1;

/// The longest message that the writer writes.
pub const LONGEST: usize = 4 * (1 + 2 + 640) + 2;

/// Whose code it is.
pub const CODE: &str = env!("LINKED_CODE");

pub fn read_entry(bytes: &[u8], words: &mut [u64]) -> u64 {
    unsafe { c::dimecandle_read_conf_state(bytes.as_ptr(), bytes.len(), words.as_mut_ptr(), words.len()) }
}

pub fn write_entry(words: &[u64], bytes: &mut [u8]) -> u64 {
    unsafe { c::dimecandle_write_conf_state(words.as_ptr(), words.len(), bytes.as_mut_ptr(), bytes.len()) }
}

pub fn words(message: &Message) -> Vec<u64> {
    let mut words = vec![0; CONF_STATE];
    for (place, ids) in words.chunks_exact_mut(LIST).zip(&message.lists) {
        place[..ids.len()].copy_from_slice(ids);
        place[LIST - 1] = ids.len() as u64;
    }
    words[CONF_STATE - 1] = u64::from(message.flag);
    words
}

/// Refused, it is the number. Every word is one that the reader wrote: where they are not those of the message it is said.
pub fn read(bytes: &[u8]) -> Answer {
    let mut lent = vec![u64::MAX; CONF_STATE];
    let number = read_entry(bytes, &mut lent);
    let mut message = Message { flag: lent[CONF_STATE - 1] != 0, ..Message::default() };
    for (place, ids) in lent.chunks_exact(LIST).zip(&mut message.lists) {
        *ids = place[..(place[LIST - 1] as usize).min(LIST - 1)].to_vec();
    }
    match number {
        0 if lent == words(&message) => Ok(message),
        0 => Err("taken, with words that are no message's".to_string()),
        _ if lent.iter().all(|&word| word == 0) => Err(number.to_string()),
        _ => Err(format!("{number}, with words that are not all zero")),
    }
}

/// The bytes written.
pub fn write(message: &Message) -> Result<Vec<u8>, String> {
    let mut bytes = vec![0; LONGEST];
    let length = write_entry(&words(message), &mut bytes);
    match usize::try_from(length) {
        Ok(length) if length <= LONGEST => Ok(bytes[..length].to_vec()),
        _ => Err(format!("the writer's answer is {length}")),
    }
}
