//! Messages through the subject and the second reader and writer (message.rs). The Rust has no answer here: its codec is not among its text.

use super::{from_the_paper, Compared, Comparison, Difference, Failure, Input, TAIL};
use crate::message::{LONGEST_MESSAGE, NO_ROOM_FOR_IT, REFUSED};
use crate::model::Model;
use crate::show;
use crate::words::{Block, ConfState, CONF_STATE_WORDS};
use std::hint::black_box;

/// What reading a message gives: the number, and the words.
#[derive(Clone, PartialEq, Eq)]
pub struct Reading {
    pub number: u64,
    pub lists: Box<ConfState>,
}

impl Reading {
    /// The right one.
    pub fn of(bytes: &[u8]) -> Reading {
        let mut lists = Box::new(ConfState::zero());
        let number = Model::PAPER.read_conf_state(bytes, lists.words_mut());
        Reading { number, lists }
    }
}

/// The right message of some lists, or what refuses them whatever the buffer.
pub fn right_message(lists: &ConfState) -> Result<Vec<u8>, u64> {
    let mut bytes = vec![0; LONGEST_MESSAGE];
    let returned = Model::PAPER.write_conf_state(lists.words(), &mut bytes);
    if returned >= REFUSED {
        return Err(returned);
    }
    bytes.truncate(returned as usize);
    Ok(bytes)
}

/// The same lists and flag, with zeros in the places after each count.
pub fn without_unused(lists: &ConfState) -> ConfState {
    let mut lists = *lists;
    for list in lists.lists_mut() {
        let used = list.used().len();
        list.ids[used..].fill(0);
    }
    lists
}

const STALE: u64 = 0xa5a5_a5a5_a5a5_a5a5;

/// Words lent beyond the lists, in turn, which have to stay as they are.
const AFTER: [usize; 3] = [0, 1, 39];

/// What stands behind the bytes given, and would end a varint and fill a field that goes beyond them.
pub(super) const BEHIND: [u8; 16] = [1; 16];

impl Comparison<'_> {
    // ** Reading

    /// Compares the reading of one message.
    pub fn message(&mut self, bytes: &[u8]) -> Compared {
        self.inputs += 1;
        let right = Reading::of(bytes);
        self.count(right.number);
        self.accepted += u64::from(right.number == 0);
        match self.each_side(|this| this.reading_difference(bytes, &right)) {
            None => Ok(()),
            Some(difference) => Err(Box::new(Failure { input: Input::Message(bytes.to_vec()), difference })),
        }
    }

    pub fn message_difference(&mut self, bytes: &[u8]) -> Option<Difference> {
        let right = Reading::of(bytes);
        self.each_side(|this| this.reading_difference(bytes, &right))
    }

    /// Asks the subject, and holds what it read against what is right.
    pub fn reading_difference(&self, bytes: &[u8], right: &Reading) -> Option<Difference> {
        let what = match self.ask_to_read(bytes) {
            Err(what) => what,
            Ok(reading) if reading == *right => return None,
            Ok(reading) => show::readings(&reading, right),
        };
        Some(from_the_paper(what))
    }

    /// What the subject reads. The words after the lists stay as they are, and so does the message.
    pub fn ask_to_read(&self, bytes: &[u8]) -> Result<Reading, String> {
        let mut words = [STALE; CONF_STATE_WORDS + 39];
        let lent = CONF_STATE_WORDS + AFTER[self.inputs as usize % AFTER.len()];
        // black_box: else the compiler takes it for granted that given bytes are not written
        let given = black_box([bytes, &BEHIND].concat());
        let number = self.subject.read_conf_state(&given[..bytes.len()], &mut words[..lent]);
        let (read, after) = words.split_at(CONF_STATE_WORDS);
        if after.iter().any(|&word| word != STALE) {
            return Err("words after the lists were written".to_string());
        }
        if given[..bytes.len()] != *bytes {
            return Err("the message was written".to_string());
        }
        let mut lists = Box::new(ConfState::zero());
        lists.words_mut().copy_from_slice(read);
        Ok(Reading { number, lists })
    }

    // ** Writing

    /// Compares what is written of some lists: into a buffer of the message's length, a longer one, one that is a byte short and none. What
    /// was written is read back.
    pub fn lists(&mut self, lists: &ConfState) -> Compared {
        self.inputs += 1;
        match right_message(lists) {
            Ok(message) => {
                self.count(0);
                self.accepted += 1;
                if !message.is_empty() {
                    self.count(NO_ROOM_FOR_IT - REFUSED);
                }
            }
            Err(refusal) => self.count(refusal - REFUSED),
        }
        match self.lists_difference(lists) {
            None => Ok(()),
            Some(difference) => Err(Box::new(Failure { input: Input::Lists(Box::new(*lists)), difference })),
        }
    }

    pub fn lists_difference(&mut self, lists: &ConfState) -> Option<Difference> {
        let right = right_message(lists);
        self.each_side(|this| this.writing_difference(lists, &right))
    }

    /// Asks the subject, and holds what it wrote against what is right.
    pub fn writing_difference(&self, lists: &ConfState, right: &Result<Vec<u8>, u64>) -> Option<Difference> {
        self.written_in_rooms(lists, right).map(from_the_paper)
    }

    fn written_in_rooms(&self, lists: &ConfState, right: &Result<Vec<u8>, u64>) -> Option<String> {
        let message = match right {
            Ok(message) => message,
            Err(refusal) => {
                let rooms = [0, 1, LONGEST_MESSAGE, LONGEST_MESSAGE + TAIL];
                return rooms.into_iter().find_map(|room| self.write_in(lists, room, Err(*refusal)));
            }
        };
        let whole = [message.len(), message.len() + TAIL].map(|room| (room, Ok(&message[..])));
        let short = [message.len().wrapping_sub(1), 0].map(|room| (room, Err(NO_ROOM_FOR_IT)));
        let short = short.into_iter().filter(|_| !message.is_empty());
        let differs = whole.into_iter().chain(short).find_map(|(room, right)| self.write_in(lists, room, right));
        differs.or_else(|| self.read_back(lists, message))
    }

    /// Runs the subject's writer on a buffer of this length, filled before. The bytes after the message are kept, and with a refusal all.
    fn write_in(&self, lists: &ConfState, room: usize, right: Result<&[u8], u64>) -> Option<String> {
        let before: Vec<u8> = (0..room).map(|place| (place as u8).wrapping_mul(31) | 128).collect();
        let mut bytes = before.clone();
        let given = black_box(*lists);
        let returned = self.subject.write_conf_state(given.words(), &mut bytes);
        let (value, message) = match right {
            Ok(message) => (message.len() as u64, message),
            Err(refusal) => (refusal, &[][..]),
        };
        let (front, after) = bytes.split_at(message.len());
        if returned != value {
            return Some(format!("with {room} bytes it returned {} and not {}", show::written(returned), show::written(value)));
        }
        if front != message {
            return Some(format!("the message: subject {}, expected {}", show::hex(front), show::hex(message)));
        }
        if after != &before[message.len()..] {
            return Some(format!("with {room} bytes it returned {}, and bytes were written", show::written(returned)));
        }
        (given != *lists).then(|| "the lists were written".to_string())
    }

    /// "reading it gives the same four lists and flag": of what the subject wrote, by the subject.
    fn read_back(&self, lists: &ConfState, message: &[u8]) -> Option<String> {
        let same = Reading { number: 0, lists: Box::new(without_unused(lists)) };
        match self.ask_to_read(message) {
            Err(what) => Some(what),
            Ok(reading) if reading == same => None,
            Ok(reading) => Some(format!("read back, {}", show::readings(&reading, &same))),
        }
    }
}
