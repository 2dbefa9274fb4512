//! In the place of oracle.rs where the Rust text was not found: there is no Rust's side, no input is in its
//! domain, and nobody asks it.

use crate::compare::Entries;
use crate::words::{Reply, Request, State, Verdict};

pub const AT_HAND: bool = false;

#[derive(Default)]
pub struct Rust {
    pub entries: Entries,
}

const NOT_ASKED: &str = "without its text the Rust is not asked";

impl Rust {
    pub fn answer(&mut self, _: &Request, _: &mut Reply) {
        unreachable!("{NOT_ASKED}")
    }

    pub fn unplug(&mut self, _: &State, _: u64) -> Verdict {
        unreachable!("{NOT_ASKED}")
    }

    pub fn idle_with_repairs(&mut self, _: &Request) -> u64 {
        unreachable!("{NOT_ASKED}")
    }
}

pub fn rust_listing(_: &[u8]) -> Vec<u8> {
    unreachable!("{NOT_ASKED}")
}
