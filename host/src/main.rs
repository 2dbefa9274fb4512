//! The proved code beside the Rust that it was carried over from: comparison, vectors, speed, stack. README.md says how to run it.

#[cfg(rust_text)]
mod bench;
mod beside;
mod calls;
mod compare;
mod dimecandle;
mod emulated;
mod generate;
mod groups;
mod lines;
mod message;
mod model;
#[cfg_attr(not(rust_text), path = "no_oracle.rs")]
mod oracle;
mod quorum;
mod random;
mod run;
mod script;
mod show;
mod shrink;
mod stack;
mod subject;
#[cfg(rust_text)]
mod timing;
mod vectors;
mod whole;
mod words;
mod workers;
mod wrong;

fn main() -> std::process::ExitCode {
    run::command(std::env::args().skip(1).collect())
}
