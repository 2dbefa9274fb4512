//! The Rust that was carried over, compiled as it was published, among stand-ins for the parts of crate raft 0.7.0 that are not at hand.
//!
//! | the text, unchanged | stand-in, in this folder |
//! |---|---|
//! | confchange.rs, confchange/changer.rs, confchange/restore.rs | eraftpb.rs (protobuf types and `raft_proto`) |
//! | tracker.rs, tracker/progress.rs, tracker/state.rs, tracker/inflights.rs | errors.rs |
//! | quorum.rs | quorum/majority.rs, quorum/joint.rs |
//! | | fx.rs (crate fxhash) and ../../getset (crate getset) |
//!
//! build.rs writes the modules of the text into OUT_DIR: each is a copy of the file, or an `include!` of it with a door behind it.
//! doors/ are functions that read what the text keeps private; they decide nothing. bridge.rs makes and reads the
//! text's values.
//!
//! Without the text this crate is empty, and the program says so.
#![cfg(rust_text)]

// `crate::..` and `raft_proto::..` of the text
extern crate self as raft_proto;

pub mod bridge;
pub mod eraftpb;
mod errors;
mod fx;

// mod confchange; mod quorum; mod tracker;
include!(concat!(env!("OUT_DIR"), "/text/modules.rs"));

// What the text names of the crate root: src/lib.rs has these lines, with the rest of the crate among them.
pub use confchange::{restore, Changer, MapChange, MapChangeType};
pub use eraftpb::new_conf_change_single;
pub use errors::{Error, Result};
pub use quorum::joint::Configuration as JointConfig;
pub use quorum::majority::Configuration as MajorityConfig;
pub use tracker::{Configuration, Inflights, Progress, ProgressState, ProgressTracker};

/// "`INVALID_INDEX` comes from the released crate": 0 there.
pub const INVALID_INDEX: u64 = 0;

type DefaultHashBuilder = std::hash::BuildHasherDefault<fx::FxHasher>;
type HashMap<K, V> = std::collections::HashMap<K, V, DefaultHashBuilder>;
type HashSet<K> = std::collections::HashSet<K, DefaultHashBuilder>;
