//! The groups of the comparison, in the order in which they run. Each hands inputs to a `Comparison`, which stops it at the first
//! difference.

mod bytes;
pub mod comparisons;
mod examples;
mod idle;
mod limits;
pub mod messages;
mod neighbours;
pub mod order;
mod quorums;
mod random;
mod restores;
pub mod scripts;
mod states;
mod unplug;
mod vectors;
pub mod wrapper;

use crate::beside::Share;
use crate::compare::{Compared, Comparison};
use crate::random::Random;

/// How much a group tries.
#[derive(Clone, Copy, PartialEq, Eq)]
pub enum Size {
    /// enough for each wrong rule to be caught
    Quick,
    Usual,
    Long,
}

impl Size {
    pub fn pick<T>(self, quick: T, usual: T, long: T) -> T {
        match self {
            Size::Quick => quick,
            Size::Usual => usual,
            Size::Long => long,
        }
    }
}

/// The entry that a group's inputs go through.
#[derive(Clone, Copy, PartialEq, Eq)]
pub enum Entry {
    Call,
    Unplug,
    /// the two entries on messages
    Messages,
    /// the same, on the stored bytes of two encoders
    Encoders,
    /// two messages compared with each other
    Comparisons,
    Replay,
    /// those of libcalls.a through dimecandle.rs: always the linked ones
    Wrapper,
    /// the recorded cases: calls and scripts
    Vectors,
    /// none: the plain Rust that the bench times beside the entries on messages and on pairs of them
    Plain,
    /// none: the group is about what other groups rest on, and asks nothing of the subject
    None,
}

pub struct Group {
    pub name: &'static str,
    pub entry: Entry,
    /// how much of it emulated code is asked, where that is asked beside native code
    pub emulated: Share,
    pub run: fn(&mut Comparison, &mut Random, Size) -> Compared,
}

impl Group {
    /// Whether it belongs to the comparison with the Rust, or compares something else: the wrapper, and answers that were recorded.
    pub fn beside_the_rust(&self) -> bool {
        !matches!(self.entry, Entry::Wrapper | Entry::Vectors | Entry::Encoders)
    }

    /// Whether it asks the Rust alone, and is nothing without its text.
    pub fn of_the_rust_alone(&self) -> bool {
        self.name == idle::BOTH_WAYS
    }
}

/// Examples, limits, edges of the entries and scripts.
const ALL: Share = Share::All;
const SOME: Share = Share::OneInTwenty;

#[rustfmt::skip]
pub const GROUPS: [Group; 75] = [
    Group { name: "calls: the examples of document 01", entry: Entry::Call, emulated: ALL, run: examples::examples },
    Group { name: "calls: every state over two ids, every list of up to two changes", entry: Entry::Call, emulated: SOME, run: states::two_ids },
    Group { name: "calls: every state over three ids, every single change", entry: Entry::Call, emulated: SOME, run: states::three_ids },
    Group { name: "calls: every state over three ids that passes the check, every list of up to three", entry: Entry::Call, emulated: SOME, run: states::passing },
    Group { name: "apply_conf: every state over two ids, every log of up to two", entry: Entry::Call, emulated: SOME, run: states::apply_logs },
    Group { name: "apply_conf: every tracked subset of three ids, every log of up to four", entry: Entry::Call, emulated: SOME, run: states::apply_long_logs },
    Group { name: "apply_conf: every configuration over two ids", entry: Entry::Call, emulated: SOME, run: states::apply_confs },
    Group { name: "both restores: to fresh, every four lists of up to two ids", entry: Entry::Call, emulated: SOME, run: restores::to_fresh },
    Group { name: "both restores: to every state over two ids, every four lists of up to one id", entry: Entry::Call, emulated: SOME, run: restores::to_any },
    Group { name: "calls: random states in order", entry: Entry::Call, emulated: SOME, run: random::in_order },
    Group { name: "calls: random states with ids of two roles", entry: Entry::Call, emulated: SOME, run: random::two_roles },
    Group { name: "calls: random states with faults, idle boxes, id 0", entry: Entry::Call, emulated: SOME, run: random::faulty },
    Group { name: "calls: random malformed states, configurations, logs, lists", entry: Entry::Call, emulated: SOME, run: random::malformed },
    Group { name: "calls: random sequences from fresh, each answer applied", entry: Entry::Call, emulated: SOME, run: random::sequences },
    Group { name: "calls: lists of 250 to 260", entry: Entry::Call, emulated: ALL, run: limits::long_lists },
    Group { name: "calls: 60 to 64 tracked, room freed and used", entry: Entry::Call, emulated: ALL, run: limits::full },
    Group { name: "calls: ids 0 and 2^64 - 1", entry: Entry::Call, emulated: ALL, run: limits::ends },
    Group { name: "idle entries: examples worked by hand", entry: Entry::Call, emulated: ALL, run: idle::examples },
    Group { name: idle::BOTH_WAYS, entry: Entry::None, emulated: ALL, run: idle::both_ways },
    Group { name: "in order: every state over two and three ids, left, written out and restored", entry: Entry::Call, emulated: SOME, run: order::small },
    Group { name: "in order: random states, left, written out and restored", entry: Entry::Call, emulated: SOME, run: order::random },
    Group { name: "neighbours: quorums by hand", entry: Entry::None, emulated: ALL, run: quorums::by_hand },
    Group { name: "neighbours: wrong rules and wrong quorums break the sentence", entry: Entry::None, emulated: ALL, run: quorums::broken },
    Group { name: "neighbours: every state in order over two and three ids, every list of up to two changes", entry: Entry::Call, emulated: SOME, run: neighbours::small },
    Group { name: "neighbours: random states in order of every size, one voter changed, a rack swapped", entry: Entry::Call, emulated: SOME, run: neighbours::random },
    Group { name: "neighbours: small restores to fresh, by their own steps", entry: Entry::Call, emulated: SOME, run: neighbours::restores },
    Group { name: "neighbours: random sequences, restores by their own steps", entry: Entry::Call, emulated: SOME, run: neighbours::sequences },
    Group { name: "bytes: lengths, unknown calls, words that no field can hold", entry: Entry::Call, emulated: ALL, run: bytes::bytes },
    Group { name: "unplug: every state over two ids, every id", entry: Entry::Unplug, emulated: SOME, run: unplug::two_ids },
    Group { name: "unplug: every state over three ids", entry: Entry::Unplug, emulated: SOME, run: unplug::three_ids },
    Group { name: "unplug: random states in order", entry: Entry::Unplug, emulated: SOME, run: unplug::in_order },
    Group { name: "unplug: random states with ids of two roles, faults, idle boxes, id 0", entry: Entry::Unplug, emulated: SOME, run: unplug::faulty },
    Group { name: "unplug: random malformed states", entry: Entry::Unplug, emulated: SOME, run: unplug::malformed },
    Group { name: "unplug: lengths, words that no field can hold", entry: Entry::Unplug, emulated: ALL, run: unplug::words },
    Group { name: "messages: examples worked by hand", entry: Entry::Messages, emulated: ALL, run: messages::examples },
    Group { name: "messages: every byte string of up to two bytes", entry: Entry::Messages, emulated: SOME, run: messages::short },
    Group { name: "messages: every prefix of good ones", entry: Entry::Messages, emulated: SOME, run: messages::prefixes },
    Group { name: "messages: damaged", entry: Entry::Messages, emulated: SOME, run: messages::damaged },
    Group { name: "messages: random bytes", entry: Entry::Messages, emulated: SOME, run: messages::random_bytes },
    Group { name: "messages: random fields", entry: Entry::Messages, emulated: SOME, run: messages::random_fields },
    Group { name: "messages: varints of 1 to 13 bytes as every part", entry: Entry::Messages, emulated: ALL, run: messages::varints },
    Group { name: "messages: lengths near 2^31, 2^32, 2^63 and 2^64", entry: Entry::Messages, emulated: ALL, run: messages::lengths },
    Group { name: "messages: field numbers 0 to 2^61 - 1, every wire type", entry: Entry::Messages, emulated: ALL, run: messages::numbers },
    Group { name: "messages: lists of 62 to 67 in every form", entry: Entry::Messages, emulated: ALL, run: messages::long_lists },
    Group { name: "messages: words lent to the reader", entry: Entry::Messages, emulated: ALL, run: messages::read_edges },
    Group { name: "messages: random lists written, in every buffer, and read back", entry: Entry::Messages, emulated: SOME, run: messages::write_random },
    Group { name: "messages: ids and lists of every size written, and read back", entry: Entry::Messages, emulated: ALL, run: messages::write_sizes },
    Group { name: "messages: words, counts, flags and buffers that the writer refuses", entry: Entry::Messages, emulated: ALL, run: messages::write_edges },
    Group { name: "messages: the stored bytes of two encoders", entry: Entry::Encoders, emulated: ALL, run: messages::encoders },
    Group { name: "messages: the plain Rust that the bench times", entry: Entry::Plain, emulated: ALL, run: messages::plain },
    Group { name: "comparisons: examples worked by hand", entry: Entry::Comparisons, emulated: ALL, run: comparisons::examples },
    Group { name: "comparisons: the reader of the lines, by hand and on wrong lines", entry: Entry::None, emulated: ALL, run: comparisons::reader },
    Group { name: "comparisons: every two messages over two ids", entry: Entry::Comparisons, emulated: SOME, run: comparisons::small },
    Group { name: "comparisons: random messages, a few ids moved", entry: Entry::Comparisons, emulated: SOME, run: comparisons::related },
    Group { name: "comparisons: random messages, unrelated", entry: Entry::Comparisons, emulated: SOME, run: comparisons::unrelated },
    Group { name: "comparisons: random lists of 60 to 64", entry: Entry::Comparisons, emulated: SOME, run: comparisons::full },
    Group { name: "comparisons: damaged", entry: Entry::Comparisons, emulated: SOME, run: comparisons::damaged },
    Group { name: "comparisons: ids of 1 to 20 digits in every two standings", entry: Entry::Comparisons, emulated: ALL, run: comparisons::digits },
    Group { name: "comparisons: faults in the first, in the second and in both", entry: Entry::Comparisons, emulated: ALL, run: comparisons::faults },
    Group { name: "comparisons: slices of 32,767 to 65,536 bytes", entry: Entry::Comparisons, emulated: ALL, run: comparisons::slices },
    Group { name: "comparisons: full lists, the longest lines", entry: Entry::Comparisons, emulated: ALL, run: comparisons::longest },
    Group { name: "comparisons: every buffer", entry: Entry::Comparisons, emulated: ALL, run: comparisons::rooms },
    Group { name: "comparisons: the plain Rust that the bench times", entry: Entry::Plain, emulated: ALL, run: comparisons::plain },
    Group { name: "vectors: every case of crates/vectors", entry: Entry::Vectors, emulated: ALL, run: vectors::vectors },
    Group { name: "wrapper: dimecandle.rs on random states", entry: Entry::Wrapper, emulated: SOME, run: wrapper::wrapper },
    Group { name: "wrapper: dimecandle.rs on messages", entry: Entry::Wrapper, emulated: SOME, run: wrapper::messages },
    Group { name: "wrapper: dimecandle.rs on comparisons", entry: Entry::Wrapper, emulated: SOME, run: wrapper::comparisons },
    Group { name: "scripts: the listing of document 01", entry: Entry::Replay, emulated: ALL, run: scripts::example },
    Group { name: "scripts: every one of a few records over two ids", entry: Entry::Replay, emulated: ALL, run: scripts::every },
    Group { name: "scripts: random over few ids", entry: Entry::Replay, emulated: ALL, run: scripts::few_ids },
    Group { name: "scripts: random over more than 64 ids", entry: Entry::Replay, emulated: ALL, run: scripts::many_ids },
    Group { name: "scripts: cut at every length", entry: Entry::Replay, emulated: ALL, run: scripts::cut },
    Group { name: "scripts: damaged", entry: Entry::Replay, emulated: ALL, run: scripts::damaged },
    Group { name: "scripts: 255 to 257 pending", entry: Entry::Replay, emulated: ALL, run: scripts::pending },
    Group { name: "scripts: 65,535 to 65,537 bytes, the longest listings", entry: Entry::Replay, emulated: ALL, run: scripts::longest },
];
