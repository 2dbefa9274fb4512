//! The x86-64 code of the static libraries on a processor that is not an x86-64: each entry in a program of its
//! own (emulated.c, which also has the frames), run by the emulator and asked through pipes.

use crate::subject::Subject;
use std::cell::{Cell, RefCell};
use std::io::{Read, Write};
use std::process::{Child, Command, Stdio};
use std::slice;
use std::thread::LocalKey;

/// The entries, each in its program. One whose library is not at hand is not asked.
pub struct Emulated;

// Each thread has programs of its own: they are asked side by side.
thread_local! {
    static CALL: RefCell<Program> = Program::start(option_env!("DIMECANDLE_CALL_PROGRAM"));
    static UNPLUG: RefCell<Program> = Program::start(option_env!("DIMECANDLE_UNPLUG_PROGRAM"));
    static READ_CONF_STATE: RefCell<Program> = Program::start(option_env!("DIMECANDLE_READ_CONF_STATE_PROGRAM"));
    static WRITE_CONF_STATE: RefCell<Program> = Program::start(option_env!("DIMECANDLE_WRITE_CONF_STATE_PROGRAM"));
    static COMPARE: RefCell<Program> = Program::start(option_env!("DIMECANDLE_COMPARE_PROGRAM"));
    static REPLAY: RefCell<Program> = Program::start(option_env!("DIMECANDLE_REPLAY_PROGRAM"));
}

impl Subject for Emulated {
    fn call(&self, request: &[u8], reply: &mut [u8]) -> u64 {
        ask(&CALL, request, reply)
    }

    /// The given bytes are the id and then the state, the lent ones the verdict.
    fn unplug(&self, state: &[u64], id: u64, verdict: &mut [u64]) -> u64 {
        let given: Vec<u8> = [id].iter().chain(state).flat_map(|word| word.to_le_bytes()).collect();
        ask(&UNPLUG, &given, bytes_of(verdict))
    }

    fn read_conf_state(&self, bytes: &[u8], conf_state: &mut [u64]) -> u64 {
        ask(&READ_CONF_STATE, bytes, bytes_of(conf_state))
    }

    fn write_conf_state(&self, conf_state: &[u64], bytes: &mut [u8]) -> u64 {
        let given: Vec<u8> = conf_state.iter().flat_map(|word| word.to_le_bytes()).collect();
        ask(&WRITE_CONF_STATE, &given, bytes)
    }

    /// The given bytes are the first message's length, a word, and then both messages.
    fn compare(&self, first: &[u8], second: &[u8], out: &mut [u8]) -> u64 {
        let given = [&(first.len() as u64).to_le_bytes(), first, second].concat();
        ask(&COMPARE, &given, out)
    }

    fn replay(&self, script: &[u8], out: &mut [u8]) -> u64 {
        ask(&REPLAY, script, out)
    }
}

/// Words are bytes too.
fn bytes_of(words: &mut [u64]) -> &mut [u8] {
    unsafe { slice::from_raw_parts_mut(words.as_mut_ptr().cast(), 8 * words.len()) }
}

thread_local! {
    /// Whether the stack of what is asked is measured, and the most that was needed since.
    static MEASURED: Cell<bool> = const { Cell::new(false) };
    static PEAK: Cell<usize> = const { Cell::new(0) };
}

/// Does something with the stack measured of each entry that it asks: the most that one needed.
#[cfg(emulated)]
pub fn peak(work: impl FnOnce()) -> usize {
    PEAK.set(0);
    MEASURED.set(true);
    work();
    MEASURED.set(false);
    PEAK.get()
}

fn ask(program: &'static LocalKey<RefCell<Program>>, given: &[u8], lent: &mut [u8]) -> u64 {
    let answer = program.with_borrow_mut(|program| program.ask(MEASURED.get(), given, lent));
    let [returned, stack] = answer.expect("the emulated program answers");
    PEAK.set(PEAK.get().max(stack as usize));
    returned
}

/// The stack that a program has: twice what it fills where the stack is measured.
const STACK_KIB: &str = "8192";

/// A running program. It ends with its input, which ends when its thread does.
struct Program {
    child: Child,
    frame: Vec<u8>,
}

impl Program {
    fn start(program: Option<&str>) -> RefCell<Program> {
        let (Some(emulator), Some(program)) = (option_env!("EMULATOR"), program) else {
            unreachable!("only what was built for the emulator is asked")
        };
        let mut command = Command::new(emulator);
        command.args(["--stack", STACK_KIB, program]).stdin(Stdio::piped()).stdout(Stdio::piped());
        RefCell::new(Program { child: command.spawn().expect("the emulator starts"), frame: vec![] })
    }

    /// One frame and its answer: what the entry returned, and its stack where that is measured. The lent bytes go there and come back.
    fn ask(&mut self, measured: bool, given: &[u8], lent: &mut [u8]) -> std::io::Result<[u64; 2]> {
        let Program { child: Child { stdin: Some(input), stdout: Some(output), .. }, frame } = self else {
            unreachable!("both are pipes")
        };
        frame.clear();
        frame.extend([u64::from(measured), given.len() as u64, lent.len() as u64].map(u64::to_le_bytes).as_flattened());
        frame.extend_from_slice(given);
        frame.extend_from_slice(lent);
        input.write_all(frame)?;
        let mut words = [[0; 8]; 2];
        output.read_exact(words.as_flattened_mut())?;
        output.read_exact(lent)?;
        Ok(words.map(u64::from_le_bytes))
    }
}

impl Drop for Program {
    fn drop(&mut self) {
        drop(self.child.stdin.take());
        // whatever it ends with: each of its answers has been looked at
        let _ = self.child.wait();
    }
}
