//! What is compared: the six C entries, on bytes and on words; and whose code they are.

use crate::emulated::Emulated;
use crate::model::Model;

pub trait Subject {
    /// `dimecandle_call` of the library `calls`: docs/EMBEDDING.md.
    fn call(&self, request: &[u8], reply: &mut [u8]) -> u64;

    /// `dimecandle_unplug` of the same library.
    fn unplug(&self, state: &[u64], id: u64, verdict: &mut [u64]) -> u64;

    /// `dimecandle_read_conf_state` of the same library: a message read into the words of a CONFSTATE.
    fn read_conf_state(&self, bytes: &[u8], conf_state: &mut [u64]) -> u64;

    /// `dimecandle_write_conf_state` of the same library: the message of a CONFSTATE, written to the front of the bytes.
    fn write_conf_state(&self, conf_state: &[u64], bytes: &mut [u8]) -> u64;

    /// `dimecandle_compare` of the same library: where two messages differ, as lines written to the front of the bytes.
    fn compare(&self, first: &[u8], second: &[u8], out: &mut [u8]) -> u64;

    /// `dimecandle_replay` of the library `listing`: document 01, "The replay script".
    fn replay(&self, script: &[u8], out: &mut [u8]) -> u64;
}

/// The entries, under their C names.
pub struct Linked;

/// Which of the libraries are at hand. In the place of a missing one the model has the names of its entries.
pub const CALLS_AT_HAND: bool = cfg!(libcalls);
pub const LISTING_AT_HAND: bool = cfg!(liblisting);

/// Whether the x86-64 code of those at hand is in programs for the emulator: this is not an x86-64.
pub const EMULATED: bool = cfg!(emulated);

/// Whether the entries' names then stand for native code. If not, they stand for these programs.
pub const NATIVE: bool = cfg!(native);

/// Whether the entries' names stand for emulated code.
pub const LINKED_IS_EMULATED: bool = EMULATED && !NATIVE;

pub const STATIC_CODE: &str = "x86-64 code of the static libraries";
pub const EMULATED_CODE: &str = "x86-64 code, emulated";

/// What the entries' names stand for, where the libraries are at hand.
pub fn linked_code() -> String {
    match (EMULATED, NATIVE) {
        (false, _) => STATIC_CODE.to_string(),
        (true, true) => format!("native code of the same LLVM module, {}", std::env::consts::ARCH),
        (true, false) => EMULATED_CODE.to_string(),
    }
}

/// The emulated code, where it is asked beside native code.
pub fn beside() -> Option<&'static dyn Subject> {
    NATIVE.then_some(&Emulated as &dyn Subject)
}

/// Why a library is not there; empty where it is.
pub const CALLS_MISSING: &str = env!("CALLS_MISSING");
pub const LISTING_MISSING: &str = env!("LISTING_MISSING");

/// Says of each library that is not there why, and what that means.
pub fn say_missing(meaning: &str) {
    for why in [CALLS_MISSING, LISTING_MISSING].iter().filter(|why| !why.is_empty()) {
        println!("{why}: {meaning}");
    }
}

mod c {
    extern "C" {
        pub fn dimecandle_call(request: *const u8, request_len: usize, reply: *mut u8, reply_len: usize) -> u64;
        pub fn dimecandle_unplug(state: *const u64, state_len: usize, id: u64, verdict: *mut u64, verdict_len: usize) -> u64;
        pub fn dimecandle_read_conf_state(bytes: *const u8, bytes_len: usize, conf_state: *mut u64, conf_state_len: usize)
            -> u64;
        pub fn dimecandle_write_conf_state(
            conf_state: *const u64,
            conf_state_len: usize,
            bytes: *mut u8,
            bytes_len: usize,
        ) -> u64;
        pub fn dimecandle_compare(
            first: *const u8,
            first_len: usize,
            second: *const u8,
            second_len: usize,
            out: *mut u8,
            out_len: usize,
        ) -> u64;
        pub fn dimecandle_replay(script: *const u8, n: usize, out: *mut u8, m: usize) -> u64;
    }
}

impl Subject for Linked {
    fn call(&self, request: &[u8], reply: &mut [u8]) -> u64 {
        unsafe { c::dimecandle_call(request.as_ptr(), request.len(), reply.as_mut_ptr(), reply.len()) }
    }

    fn unplug(&self, state: &[u64], id: u64, verdict: &mut [u64]) -> u64 {
        unsafe { c::dimecandle_unplug(state.as_ptr(), state.len(), id, verdict.as_mut_ptr(), verdict.len()) }
    }

    fn read_conf_state(&self, bytes: &[u8], conf_state: &mut [u64]) -> u64 {
        unsafe { c::dimecandle_read_conf_state(bytes.as_ptr(), bytes.len(), conf_state.as_mut_ptr(), conf_state.len()) }
    }

    fn write_conf_state(&self, conf_state: &[u64], bytes: &mut [u8]) -> u64 {
        unsafe { c::dimecandle_write_conf_state(conf_state.as_ptr(), conf_state.len(), bytes.as_mut_ptr(), bytes.len()) }
    }

    fn compare(&self, first: &[u8], second: &[u8], out: &mut [u8]) -> u64 {
        let [(first, n), (second, m)] = [first, second].map(|bytes| (bytes.as_ptr(), bytes.len()));
        unsafe { c::dimecandle_compare(first, n, second, m, out.as_mut_ptr(), out.len()) }
    }

    fn replay(&self, script: &[u8], out: &mut [u8]) -> u64 {
        unsafe { c::dimecandle_replay(script.as_ptr(), script.len(), out.as_mut_ptr(), out.len()) }
    }
}

impl Subject for Model {
    fn call(&self, request: &[u8], reply: &mut [u8]) -> u64 {
        Model::call(self, request, reply)
    }

    fn unplug(&self, state: &[u64], id: u64, verdict: &mut [u64]) -> u64 {
        Model::unplug(self, state, id, verdict)
    }

    fn read_conf_state(&self, bytes: &[u8], conf_state: &mut [u64]) -> u64 {
        Model::read_conf_state(self, bytes, conf_state)
    }

    fn write_conf_state(&self, conf_state: &[u64], bytes: &mut [u8]) -> u64 {
        Model::write_conf_state(self, conf_state, bytes)
    }

    fn compare(&self, first: &[u8], second: &[u8], out: &mut [u8]) -> u64 {
        Model::compare(self, first, second, out)
    }

    fn replay(&self, script: &[u8], out: &mut [u8]) -> u64 {
        Model::replay(self, script, out)
    }
}

// ** The entries' names where no archive that has them is linked: of a library at hand they stand for the emulated programs, of a missing
// one for the model.

#[cfg(not(calls_linked))]
mod calls_in_place {
    use super::*;
    use std::slice;

    const CALLS: &dyn Subject = if CALLS_AT_HAND { &Emulated } else { &Model::PAPER };

    #[no_mangle]
    unsafe extern "C" fn dimecandle_call(request: *const u8, n: usize, reply: *mut u8, m: usize) -> u64 {
        CALLS.call(slice::from_raw_parts(request, n), slice::from_raw_parts_mut(reply, m))
    }

    #[no_mangle]
    unsafe extern "C" fn dimecandle_unplug(state: *const u64, n: usize, id: u64, verdict: *mut u64, m: usize) -> u64 {
        CALLS.unplug(slice::from_raw_parts(state, n), id, slice::from_raw_parts_mut(verdict, m))
    }

    #[no_mangle]
    unsafe extern "C" fn dimecandle_read_conf_state(bytes: *const u8, n: usize, conf_state: *mut u64, m: usize) -> u64 {
        CALLS.read_conf_state(slice::from_raw_parts(bytes, n), slice::from_raw_parts_mut(conf_state, m))
    }

    #[no_mangle]
    unsafe extern "C" fn dimecandle_write_conf_state(conf_state: *const u64, n: usize, bytes: *mut u8, m: usize) -> u64 {
        CALLS.write_conf_state(slice::from_raw_parts(conf_state, n), slice::from_raw_parts_mut(bytes, m))
    }

    #[no_mangle]
    unsafe extern "C" fn dimecandle_compare(
        first: *const u8,
        n: usize,
        second: *const u8,
        m: usize,
        out: *mut u8,
        room: usize,
    ) -> u64 {
        let (first, second) = (slice::from_raw_parts(first, n), slice::from_raw_parts(second, m));
        CALLS.compare(first, second, slice::from_raw_parts_mut(out, room))
    }
}

#[cfg(not(listing_linked))]
mod listing_in_place {
    use super::*;
    use std::slice;

    const LISTING: &dyn Subject = if LISTING_AT_HAND { &Emulated } else { &Model::PAPER };

    #[no_mangle]
    unsafe extern "C" fn dimecandle_replay(script: *const u8, n: usize, out: *mut u8, m: usize) -> u64 {
        LISTING.replay(slice::from_raw_parts(script, n), slice::from_raw_parts_mut(out, m))
    }
}
