//! The entries that read and write ConfState beside two encoders that nobody here wrote: protoc and rust-protobuf. README.md.

mod bench;
mod check;
mod message;
mod ours;
mod protoc;
mod random;
mod rust_protobuf;
mod sample;
mod table;
#[path = "../../src/timing.rs"]
mod timing;

use std::process::ExitCode;

const USUAL_SEED: u64 = 1;
const USAGE: u8 = 2;

fn main() -> ExitCode {
    let words: Vec<String> = std::env::args().skip(1).collect();
    let words: Vec<&str> = words.iter().map(String::as_str).collect();
    let done = match words[..] {
        [] => Ok(check::run(USUAL_SEED)),
        ["--seed", number] if number.parse::<u64>().is_ok() => Ok(check::run(number.parse().expect("it was looked at"))),
        ["--sample"] => sample::print().map(|()| true),
        ["--table"] => {
            table::print();
            Ok(true)
        }
        ["--bench"] => bench::run().map(|()| true),
        _ => {
            eprintln!("usage: peers [--seed N] | peers --sample | peers --table | peers --bench");
            return ExitCode::from(USAGE);
        }
    };
    match done {
        Ok(true) => ExitCode::SUCCESS,
        Ok(false) => ExitCode::FAILURE,
        Err(words) => {
            eprintln!("peers: {words}");
            ExitCode::FAILURE
        }
    }
}
