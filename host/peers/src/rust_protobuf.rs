//! rust-protobuf 2.27, by the code that its own generator makes of conf_state.proto.

use crate::message::{Answer, Message};
pub use conf_state::ConfState;
use protobuf::Message as _;

include!(concat!(env!("OUT_DIR"), "/codec.rs"));

pub const VERSION: &str = protobuf::VERSION;

pub fn read(bytes: &[u8]) -> Answer {
    let read = ConfState::parse_from_bytes(bytes).map_err(|_| "refused".to_string())?;
    let lists = [read.voters, read.learners, read.voters_outgoing, read.learners_next];
    Ok(Message { lists, flag: read.auto_leave })
}

pub fn value(message: &Message) -> ConfState {
    let [voters, learners, voters_outgoing, learners_next] = message.lists.clone();
    ConfState { voters, learners, voters_outgoing, learners_next, auto_leave: message.flag, ..ConfState::default() }
}

pub fn write(message: &Message) -> Vec<u8> {
    value(message).write_to_bytes().expect("rust-protobuf writes every message")
}

/// What it writes of what it read.
pub fn read_and_write(bytes: &[u8]) -> Option<Vec<u8>> {
    ConfState::parse_from_bytes(bytes).ok()?.write_to_bytes().ok()
}
