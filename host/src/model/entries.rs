//! The six C entries, on the model: docs/EMBEDDING.md, document 02, k) and l), and document 01's last lines on the replay script.

use super::{ConfState, Model, Replayed, Wrong};
use crate::calls;
use crate::lines::{self, NO_ROOM_FOR_LINES};
use crate::message::{self, NO_ROOM_FOR_IT, REFUSED, UNREAD};
use crate::script::{listing, LONGEST_SCRIPT, NO_ROOM, TOO_LONG};
use crate::words::{
    self, Block, Conf, List, Log, Reply, Request, State, CONF_STATE_WORDS, LIST_PLACES, REPLY_BYTES, REQUEST_BYTES, STATE_WORDS,
    VERDICT_WORDS,
};

impl Model {
    /// `dimecandle_call`
    pub fn call(&self, request: &[u8], reply: &mut [u8]) -> u64 {
        if request.len() != REQUEST_BYTES {
            return 1;
        }
        if reply.len() < REPLY_BYTES {
            return 2;
        }
        let mut words = Request::new(0);
        words.bytes_mut().copy_from_slice(request);
        let Some(call) = calls::numbered(words.call) else { return 3 };
        if !holdable(&words) {
            return 4;
        }
        let mut answer = Box::new(Reply::zero());
        answer.giving_back(&words.state);
        (call.paper)(self, &words, &mut answer);
        if self.has(Wrong::VacatedPlaceKeepsRecord) {
            keep_vacated(&words.state, &mut answer.state);
        }
        if self.has(Wrong::RefusedListIsCounted) && matches!(answer.number, 17 | 18) {
            answer.idle = zeros(&words.list);
        }
        reply[..REPLY_BYTES].copy_from_slice(answer.bytes());
        0
    }

    /// `dimecandle_unplug`
    pub fn unplug(&self, state: &[u64], id: u64, verdict: &mut [u64]) -> u64 {
        if state.len() != STATE_WORDS {
            return 1;
        }
        if verdict.len() < VERDICT_WORDS {
            return 2;
        }
        let mut words = State::zero();
        words.words_mut().copy_from_slice(state);
        if !state_holdable(&words) {
            return 4;
        }
        verdict[..VERDICT_WORDS].copy_from_slice(&calls::paper_unplug(self, &words, id));
        0
    }

    /// `dimecandle_read_conf_state`
    pub fn read_conf_state(&self, bytes: &[u8], conf_state: &mut [u64]) -> u64 {
        if conf_state.len() < CONF_STATE_WORDS {
            return UNREAD;
        }
        let (number, read) = message::read(self, bytes);
        let mut words = words::ConfState::zero();
        read.write(&mut words);
        conf_state[..CONF_STATE_WORDS].copy_from_slice(words.words());
        number
    }

    /// `dimecandle_write_conf_state`: "the writer first refuses lists over 64 with 2", "31, output too small, buffer untouched". 1 is where
    /// the words are no CONFSTATE.
    pub fn write_conf_state(&self, conf_state: &[u64], bytes: &mut [u8]) -> u64 {
        if conf_state.len() != CONF_STATE_WORDS {
            return REFUSED + 1;
        }
        let mut words = words::ConfState::zero();
        words.words_mut().copy_from_slice(conf_state);
        if words.auto_leave > 1 {
            return REFUSED + 1;
        }
        if self.has(Wrong::RoomBeforeCounts) && message::written(self, &ConfState::used(&words)).len() > bytes.len() {
            return NO_ROOM_FOR_IT;
        }
        let Some(lists) = ConfState::read(&words) else { return REFUSED + 2 };
        let message = message::written(self, &lists);
        if message.len() > bytes.len() {
            if self.has(Wrong::WritesWhatFits) {
                bytes.copy_from_slice(&message[..bytes.len()]);
            }
            return NO_ROOM_FOR_IT;
        }
        bytes[..message.len()].copy_from_slice(&message);
        message.len() as u64
    }

    /// `dimecandle_compare`: refused, the bytes lent are as they were; else so are those after the lines.
    pub fn compare(&self, first: &[u8], second: &[u8], out: &mut [u8]) -> u64 {
        let lines = match lines::compared(self, first, second) {
            Err(number) => return REFUSED + number,
            Ok(lines) => lines.into_bytes(),
        };
        if lines.len() > out.len() || (self.has(Wrong::ExactLinesRefused) && lines.len() == out.len()) {
            if self.has(Wrong::WritesLinesThatFit) {
                out.copy_from_slice(&lines[..out.len()]);
            }
            return NO_ROOM_FOR_LINES;
        }
        let (front, after) = out.split_at_mut(lines.len());
        front.copy_from_slice(&lines);
        if self.has(Wrong::ClearsAfterLines) {
            after.fill(0);
        }
        lines.len() as u64
    }

    /// `dimecandle_replay`
    pub fn replay(&self, script: &[u8], out: &mut [u8]) -> u64 {
        if script.len() > LONGEST_SCRIPT {
            return TOO_LONG;
        }
        let text = self.listing(script);
        if text.len() > out.len() || (self.has(Wrong::ExactFitRefused) && text.len() == out.len()) {
            return NO_ROOM;
        }
        out[..text.len()].copy_from_slice(&text);
        text.len() as u64
    }

    pub fn listing(&self, script: &[u8]) -> Vec<u8> {
        let mut text = listing(script, &mut Replayed::new(*self));
        let ending = format!("stopped at byte {}\n", script.len());
        if self.has(Wrong::PendingAtEndSilent) && text.ends_with(ending.as_bytes()) {
            text.truncate(text.len() - ending.len());
        }
        text
    }
}

/// "A flag is 0 or 1. A record's state is 0 Probe, 1 Replicate, 2 Snapshot. A log entry's kind is 0 Add, 1 Remove. A change's kind is a
/// number up to 255. A count of a LIST is at most 260. Every other word is any number." Every block is read for every call.
fn holdable(request: &Request) -> bool {
    let list = &request.list;
    state_holdable(&request.state)
        && request.auto_leave <= 1
        && list.kinds.iter().all(|&kind| kind <= 255)
        && list.ids_count <= LIST_PLACES as u64
        && list.kinds_count <= LIST_PLACES as u64
        && conf_holdable(&request.conf)
        && log_holdable(&request.log)
        && request.conf_state.auto_leave <= 1
}

fn state_holdable(state: &State) -> bool {
    let records = state.records.iter();
    conf_holdable(&state.conf) && records.clone().all(|r| r.state <= 2 && r.paused <= 1 && r.recent_active <= 1)
}

fn conf_holdable(conf: &Conf) -> bool {
    conf.auto_leave <= 1
}

fn log_holdable(log: &Log) -> bool {
    log.entries.iter().all(|entry| entry.kind <= 1)
}

/// Only a wrong rule does this: entries with id 0 are counted as the list is read.
fn zeros(list: &List) -> u64 {
    list.used_ids().iter().filter(|&&id| id == 0).count() as u64
}

/// Only a wrong rule does this: the last place that is no longer used keeps what it held.
fn keep_vacated(before: &State, after: &mut State) {
    if after.tracked.count < before.tracked.count && before.tracked.count <= 64 {
        let place = before.tracked.count as usize - 1;
        after.records[place] = before.records[place];
    }
}
