//! A fixed sample of the Rust's answers, in a file that the program `vectors` of the repository replays without Rust. VECTORS.md has the
//! format.
//!
//! The sample is taken from the groups of the comparison: of each group a case or two for each call and each number that it met.

mod format;
mod pieces;
mod sample;

use crate::calls::CALLS;
use crate::compare::Comparison;
use crate::model::Model;
use crate::oracle::rust_listing;
use crate::script::{LONGEST_SCRIPT, NO_ROOM, TOO_LONG};
use crate::subject::{Linked, Subject};
use crate::words::{Block, Request, REPLY_BYTES, REQUEST_BYTES};
pub use format::cases;
use format::{Case, Entry};
use std::fs;
use std::path::Path;
use std::process::ExitCode;

/// The most bytes that a case lends for a listing.
const LARGEST_ROOM: usize = 65_536;

/// Bytes lent beyond an answer, which have to stay as they are.
const TAIL: usize = 40;

/// What the program has in its lent bytes before a call.
const STALE: u8 = 0xa5;

/// Writes the program's files stdin and stdout, reads the cases back and runs what this program is linked with on every one.
pub fn write(folder: &str) -> ExitCode {
    let taken = sample::take();
    let calls = taken.calls.iter().enumerate().map(|(place, request)| call_case(request, place % 2 * TAIL)).chain(entry_cases());
    let scripts = taken.scripts.iter().flat_map(|script| script_cases(script)).chain(long_scripts());
    let cases: Vec<Case> = calls.chain(scripts).collect();
    let (stdin, stdout) = (format::file(&cases), printed(&cases, 0));
    if let Err(error) = store(folder, &stdin, &stdout) {
        println!("host: {folder}: {error}");
        return ExitCode::from(2);
    }
    println!("{folder}/stdin: {} bytes", stdin.len());
    check(&stdin)
}

fn store(folder: &str, stdin: &[u8], stdout: &str) -> std::io::Result<()> {
    fs::create_dir_all(folder)?;
    fs::write(Path::new(folder).join("stdin"), stdin)?;
    fs::write(Path::new(folder).join("stdout"), stdout)
}

/// What the program has to print: of no case a difference, and the counts.
fn printed(cases: &[Case], failed: usize) -> String {
    let count = |counts: fn(&Case) -> bool| cases.iter().filter(|case| counts(case)).count();
    let (calls, by_rust) = (count(|case| case.entry == Entry::Call), count(|case| case.by_rust));
    let (scripts, passed) = (cases.len() - calls, cases.len() - failed);
    format!("{calls} calls, {scripts} scripts; {by_rust} answered by the Rust\n{passed} passed, {failed} failed\n")
}

// ** Cases

/// A call, and the reply that is right. Where the Rust has an answer it has agreed: up to the order of a hash set, which the paper fixes.
fn call_case(request: &Request, tail: usize) -> Case {
    let mut comparison = Comparison::new(&Model::PAPER);
    assert!(comparison.call_difference(request).is_none(), "the Rust and the paper differ: run `host compare --model`");
    let (paper, rust) = comparison.expected(request);
    let lent = [paper.bytes(), &vec![STALE; tail]].concat();
    Case { entry: Entry::Call, by_rust: rust.is_some(), given: request.bytes().to_vec(), lent, value: 0 }
}

/// What the entry returns with 1 to 4.
fn entry_cases() -> Vec<Case> {
    let unknown = CALLS.len() as u64;
    let refused = |call, auto_leave, request_len: usize, reply_len, value| {
        let mut request = Request::new(call);
        request.auto_leave = auto_leave;
        let given = request.bytes()[..request_len].to_vec();
        Case { entry: Entry::Call, by_rust: false, given, lent: vec![STALE; reply_len], value }
    };
    vec![
        refused(0, 0, REQUEST_BYTES - 1, REPLY_BYTES, 1),
        refused(0, 0, 0, 0, 1),
        refused(unknown, 2, REQUEST_BYTES, REPLY_BYTES - 1, 2),
        refused(unknown, 2, REQUEST_BYTES, REPLY_BYTES, 3),
        refused(0, 2, REQUEST_BYTES, REPLY_BYTES, 4),
        refused(unknown - 1, 2, REQUEST_BYTES, REPLY_BYTES, 4),
    ]
}

/// A script with an output that is just long enough, with a longer one, and with one that is a byte short; where the listing is longer than
/// any output here, with the longest.
fn script_cases(script: &[u8]) -> Vec<Case> {
    let text = rust_listing(script);
    assert!(text == Model::PAPER.listing(script), "the Rust and the paper differ: run `host compare --model`");
    let refused = |room| script_case(script, vec![STALE; room], NO_ROOM);
    if text.len() + TAIL > LARGEST_ROOM {
        return vec![refused(LARGEST_ROOM.min(text.len() - 1))];
    }
    let fits = |tail| script_case(script, [&text[..], &vec![STALE; tail]].concat(), text.len() as u64);
    let short = (!text.is_empty()).then(|| refused(text.len() - 1));
    [fits(0), fits(TAIL)].into_iter().chain(short).collect()
}

/// A listing is the Rust's, a refusal the paper's.
fn script_case(script: &[u8], lent: Vec<u8>, value: u64) -> Case {
    let by_rust = ![TOO_LONG, NO_ROOM].contains(&value);
    Case { entry: Entry::Script, by_rust, given: script.to_vec(), lent, value }
}

/// A byte more than a script may have.
fn long_scripts() -> Vec<Case> {
    let script = vec![0; LONGEST_SCRIPT + 1];
    [0, TAIL].map(|room| script_case(&script, vec![STALE; room], TOO_LONG)).into()
}

// ** Reading back

/// Replays the file as the program without Rust does, on what this program is linked with.
fn check(file: &[u8]) -> ExitCode {
    let cases = cases(file);
    let mut failed = 0;
    for (number, case) in (1..).zip(&cases) {
        if let Err(what) = replayed(case, &Linked) {
            println!("case {number} differs: {what}");
            failed += 1;
        }
    }
    print!("{}", printed(&cases, failed));
    ExitCode::from(u8::from(failed > 0))
}

/// Whether a subject answers a case as the file says, or how not.
pub fn replayed(case: &Case, subject: &dyn Subject) -> Result<(), String> {
    let mut lent = vec![STALE; case.lent.len()];
    let value = match case.entry {
        Entry::Call => subject.call(&case.given, &mut lent),
        Entry::Script => subject.replay(&case.given, &mut lent),
    };
    if value != case.value {
        return Err(format!("it returned {value} and not {}", case.value));
    }
    match lent.iter().zip(&case.lent).position(|(given, right)| given != right) {
        None => Ok(()),
        Some(place) => Err(format!("lent byte {place} is {}, not {}", lent[place], case.lent[place])),
    }
}
