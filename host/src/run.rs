//! The command line.

use crate::groups::Size;
use crate::oracle;
use crate::whole::{self, Options, Part};
use crate::{stack, vectors};
use std::process::ExitCode;

const HELP: &str = "host: the proved code beside the Rust that it was carried over from

  host compare [--seed N] [--long] [--model] [--only WORDS] [--part rust | --part rest]
                  runs both on the same inputs and compares every answer; ends in `N passed, M failed`
                  --seed N      another sequence of random inputs (usual: 1)
                  --long        some half hour instead of some minutes
                  --model       compares the model of the paper in the place of the libraries
                  --only WORDS  only the groups whose name has these words
                  --part rust   only the comparison with the Rust: 77 where its text was not found
                  --part rest   only what the other part leaves: the wrapper, the fixed vectors and the stored bytes of two
                                encoders; and where the text was not found, every group beside the model of the
                                paper alone
  host vectors [FOLDER]
                  writes a fixed sample of the Rust's answers, the files stdin and stdout of the program
                  vectors (VECTORS.md); usual folder: crates/vectors
  host bench      times both on the same calls and scripts, and messages, also two compared, beside plain Rust, and says whose
                  code on which processor it timed
  host stack      measures the peak stack of each call, of a script, of messages and of two compared, within its bound; ends in
                  `N passed, M failed`
  host --help     prints this

Exit status: 0 all passed, 1 something differs, 2 bad usage, 77 it cannot run here (no Rust text, no library; of bench also:
emulated code alone).
";

pub const CANNOT_RUN: u8 = 77;
const USAGE: u8 = 2;

pub fn command(words: Vec<String>) -> ExitCode {
    let words: Vec<&str> = words.iter().map(String::as_str).collect();
    match words[..] {
        ["compare", ref options @ ..] => match read(options) {
            Some(options) => whole::compare(&options),
            None => usage(),
        },
        ["vectors"] => of_the_rust(|| vectors::write("crates/vectors")),
        ["vectors", folder] if !folder.starts_with('-') => of_the_rust(|| vectors::write(folder)),
        ["bench"] => of_the_rust(bench),
        ["stack"] => stack::run(),
        ["--help" | "-h" | "help"] => {
            print!("{HELP}");
            ExitCode::SUCCESS
        }
        _ => usage(),
    }
}

fn usage() -> ExitCode {
    eprint!("{HELP}");
    ExitCode::from(USAGE)
}

fn read(words: &[&str]) -> Option<Options> {
    let mut options = Options { seed: 1, size: Size::Usual, model: false, only: None, part: None };
    let mut words = words.iter();
    while let Some(word) = words.next() {
        match *word {
            "--seed" => options.seed = words.next()?.parse().ok()?,
            "--long" => options.size = Size::Long,
            "--model" => options.model = true,
            "--only" => options.only = Some(words.next()?.to_string()),
            "--part" => {
                options.part = Some(match *words.next()? {
                    "rust" => Part::Rust,
                    "rest" => Part::Rest,
                    _ => return None,
                })
            }
            _ => return None,
        }
    }
    Some(options)
}

/// Does what needs the Rust text, or says that it was not found.
pub fn of_the_rust(work: impl FnOnce() -> ExitCode) -> ExitCode {
    if oracle::AT_HAND {
        return work();
    }
    println!("host: name the folder of the Rust text (with changer.rs in confchange/) by RAFT_SRC, and build again");
    println!("host: the Rust text of crate raft 0.7.0 was not found in {} when this was built", env!("RAFT_SRC_TRIED"));
    ExitCode::from(CANNOT_RUN)
}

#[cfg(rust_text)]
fn bench() -> ExitCode {
    crate::bench::run()
}

#[cfg(not(rust_text))]
fn bench() -> ExitCode {
    unreachable!("it needs the Rust text")
}
