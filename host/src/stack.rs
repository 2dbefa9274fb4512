//! The peak stack of each call, of a script, of messages and of two that are compared, of the x86-64 code: the entry is run on a
//! thread whose stack was filled with a pattern, and what it wrote over is looked for. Of emulated code the program around it
//! does the same (emulated.c). Each has to keep within its bound. `dimecandle_unplug` and the two entries that read and write
//! messages take less than can be told apart here: unplug.c and messages.c measure them.

use crate::calls::CALLS;
#[cfg(emulated)]
use crate::emulated::{peak, Emulated as Entries};
use crate::generate;
use crate::groups::comparisons::{longest_pair, one_swapped, some_pair};
use crate::groups::messages::{some_lists, some_message};
use crate::groups::scripts::{longest_listing, script};
use crate::lines::LONGEST_LINES;
use crate::message::{packed, LONGEST_MESSAGE};
use crate::random::Random;
use crate::run::CANNOT_RUN;
#[cfg(not(emulated))]
use crate::subject::Linked as Entries;
use crate::subject::{say_missing, Subject, CALLS_AT_HAND, EMULATED, EMULATED_CODE, LISTING_AT_HAND, STATIC_CODE};
use crate::words::{Block, ConfState, Request, CAPACITY, REPLY_BYTES};
use std::process::ExitCode;

/// What a script may take.
const BOUND: usize = 128 << 10;

/// What a call may take. Code of the older kit's kept within half of it (docs/DECISIONS.md, "The bound on the stack of a call").
const BOUND_OF_CALLS: usize = 256 << 10;

/// What reading and writing a message may take: less than a list.
const BOUND_OF_MESSAGES: usize = 512;

/// What comparing two messages may take: the lists of both, and what little more there is.
const BOUND_OF_COMPARING: usize = 8 << 10;

/// What is not filled, so that less than this cannot be told apart: the frames of the measuring function and of the one that fills are here.
const MARGIN: usize = 256;

pub fn run() -> ExitCode {
    if !CALLS_AT_HAND || !LISTING_AT_HAND {
        say_missing("its stack cannot be measured");
        return ExitCode::from(CANNOT_RUN);
    }
    println!("{}", if EMULATED { EMULATED_CODE } else { STATIC_CODE });
    let calls = CALLS.iter().map(|call| (format!("dimecandle_call, {}", call.name), peak_of_call(call.number), BOUND_OF_CALLS));
    let others = [
        ("dimecandle_read_conf_state".to_string(), peak_of_reading(), BOUND_OF_MESSAGES),
        ("dimecandle_write_conf_state".to_string(), peak_of_writing(), BOUND_OF_MESSAGES),
        ("dimecandle_compare".to_string(), peak_of_comparing(), BOUND_OF_COMPARING),
        ("dimecandle_replay, the longest listing".to_string(), peak_of_replay(), BOUND),
    ];
    let peaks: Vec<(String, usize, usize)> = calls.chain(others).collect();
    let passed = peaks.iter().filter(|(name, peak, bound)| report(name, *peak, *bound)).count();
    let failed = peaks.len() - passed;
    println!("{passed} passed, {failed} failed");
    ExitCode::from(u8::from(failed > 0))
}

/// Whether it is within the bound. What takes no more than the margin was not measured; only a message that is read or written
/// may take less.
fn report(name: &str, peak: usize, bound: usize) -> bool {
    let told_apart = MARGIN < peak;
    let within = 0 < peak && peak <= bound && (told_apart || bound == BOUND_OF_MESSAGES);
    let shown = if told_apart { peak.to_string() } else { format!("up to {MARGIN}") };
    println!("{}  {name:44}{shown:>9} bytes of {bound}", if within { "passed" } else { "FAILED" });
    within
}

/// How many random messages, lists and pairs of messages are tried.
const MESSAGES: usize = 100;

/// The most over random messages, accepted and refused, and the longest one.
fn peak_of_reading() -> usize {
    let mut random = Random::new(1, "stack");
    let longest = (1..=4).flat_map(|list| packed(list, &[u64::MAX; CAPACITY])).collect();
    let messages: Vec<Vec<u8>> = (0..MESSAGES).map(|_| some_message(&mut random)).chain([longest]).collect();
    let mut lists = ConfState::zero();
    let peaks = messages.iter().map(|message| {
        peak(|| {
            Entries.read_conf_state(message, lists.words_mut());
        })
    });
    peaks.max().unwrap_or(0)
}

/// The most over random lists, written whole and refused for want of room.
fn peak_of_writing() -> usize {
    let mut random = Random::new(1, "stack");
    let mut bytes = vec![0; LONGEST_MESSAGE];
    let mut most = 0;
    for room in (0..MESSAGES).map(|number| if number % 4 == 0 { number } else { LONGEST_MESSAGE }) {
        let lists = some_lists(&mut random);
        let write = || {
            Entries.write_conf_state(lists.words(), &mut bytes[..room]);
        };
        most = most.max(peak(write));
    }
    most
}

/// The most over random pairs of messages, accepted and refused, and the two that the bench times; in whole and for want of room.
fn peak_of_comparing() -> usize {
    let mut random = Random::new(1, "stack");
    let pairs: Vec<[Vec<u8>; 2]> = (0..MESSAGES).map(|_| some_pair(&mut random)).chain([one_swapped(), longest_pair()]).collect();
    let mut out = vec![0; LONGEST_LINES];
    let mut most = 0;
    for ([first, second], room) in pairs.iter().flat_map(|pair| [(pair, LONGEST_LINES), (pair, 10)]) {
        let compare = || {
            Entries.compare(first, second, &mut out[..room]);
        };
        most = most.max(peak(compare));
    }
    most
}

fn peak_of_replay() -> usize {
    let bytes = script(&longest_listing());
    let mut out = vec![0; 16 << 20];
    peak(|| {
        Entries.replay(&bytes, &mut out);
    })
}

/// The most that a call needs over random full states, accepted and refused: in order, and with ids of two roles, which pass the check and
/// cannot be left.
fn peak_of_call(number: u64) -> usize {
    let mut random = Random::new(1, "stack");
    let ids = generate::ids(&mut random, CAPACITY);
    let mut reply = vec![0; REPLY_BYTES];
    let mut most = 0;
    for _ in 0..20 {
        let mut request = Request::new(number);
        let make = random.pick(&[generate::in_order, generate::in_order, generate::two_roles]);
        request.state = make(&mut random, &ids);
        generate::arguments(&mut random, &CALLS[number as usize], &ids, &mut request);
        let call = || {
            Entries.call(request.bytes(), &mut reply);
        };
        most = most.max(peak(call));
    }
    most
}

#[cfg(not(emulated))]
use here::peak;

#[cfg(not(emulated))]
mod here {
    use super::MARGIN;
    use std::thread;

    const STACK: usize = 8 << 20;

    /// How much below the measuring function is filled.
    const FILLED: usize = 4 << 20;

    const PATTERN: u64 = 0x5eed_5eed_5eed_5eed;

    /// How far below the caller's frame `work` writes.
    pub fn peak(work: impl FnOnce() + Send) -> usize {
        thread::scope(|scope| {
            let worker = thread::Builder::new().stack_size(STACK).spawn_scoped(scope, || measured(work)).expect("a thread");
            worker.join().expect("the entry returns")
        })
    }

    #[inline(never)]
    fn measured(work: impl FnOnce()) -> usize {
        let here = 0u64;
        let top = &raw const here as usize;
        fill(top);
        work();
        top - lowest_written(top)
    }

    /// Writes below the stack pointer, within this thread's own stack. No function is called on the way, whose frame would be written over.
    #[inline(never)]
    fn fill(top: usize) {
        let mut address = (top & !7) - FILLED;
        while address < top - MARGIN {
            unsafe { (address as *mut u64).write_volatile(PATTERN) };
            address += 8;
        }
    }

    #[inline(never)]
    fn lowest_written(top: usize) -> usize {
        let mut address = (top & !7) - FILLED;
        while address < top - MARGIN && unsafe { (address as *const u64).read_volatile() } == PATTERN {
            address += 8;
        }
        address
    }
}
