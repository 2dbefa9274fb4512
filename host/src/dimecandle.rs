//! Raft membership from Rust, by the proved library: link `libcalls.a`, and take this one file.
//!
//! ```ignore
//! mod dimecandle;
//! use dimecandle::{ConfChangeSingle, Refused, Tracker};
//!
//! fn add_first_voter() -> Result<Tracker, Refused> {
//!     let mut tracker = Tracker::new(256);
//!     let answer = tracker.simple(&[ConfChangeSingle::add_node(1)])?;
//!     tracker.apply_conf(answer.conf, answer.changes, 10)?;
//!     Ok(tracker)
//! }
//! ```
//!
//! The names are those of crate raft 0.7.0: what `Changer::new(&tracker).simple(..)` is there, `tracker.simple(..)` is here; but
//! what `restore` does there, `restore_step_by_step` does here. Every function answers for every input; none panics, and a
//! refusal leaves the tracker as it was. The one exception is `restore_step_by_step`, whose accepted steps stay. A set or the
//! tracked ids may hold at most 64 ids, a list of changes and a log 256 entries; longer ones are refused. `ConfState::read` and
//! `ConfState::write` are for a configuration that is sent, as protobuf, and `ConfState::compare` says where two such messages
//! disagree. A library of another layout than this file has is told by what its entries return: each call is then refused with
//! `OTHER_LAYOUT`.

// a program may call some of it only
#![allow(dead_code)]

use std::collections::{BTreeMap, BTreeSet};
use std::fmt;

/// What a tracker knows of one box. `max_inflight` stands in the place of the Rust's `ins`.
#[derive(Clone, Copy, Debug, Default, PartialEq, Eq)]
pub struct Progress {
    pub matched: u64,
    pub next_idx: u64,
    pub state: ProgressState,
    pub paused: bool,
    pub pending_snapshot: u64,
    pub pending_request_snapshot: u64,
    pub recent_active: bool,
    pub max_inflight: u64,
    pub commit_group_id: u64,
    pub committed_index: u64,
}

#[derive(Clone, Copy, Debug, Default, PartialEq, Eq)]
pub enum ProgressState {
    #[default]
    Probe,
    Replicate,
    Snapshot,
}

/// The four sets of ids, and the flag. `incoming` and `outgoing` are the two halves of the Rust's `voters`.
#[derive(Clone, Debug, Default, PartialEq, Eq)]
pub struct Configuration {
    pub incoming: BTreeSet<u64>,
    pub outgoing: BTreeSet<u64>,
    pub learners: BTreeSet<u64>,
    pub learners_next: BTreeSet<u64>,
    pub auto_leave: bool,
}

/// What the Rust calls `ProgressTracker`: the configuration, and the boxes that are tracked.
#[derive(Clone, Debug, Default, PartialEq, Eq)]
pub struct Tracker {
    pub conf: Configuration,
    pub progress: BTreeMap<u64, Progress>,
    pub max_inflight: u64,
}

/// A configuration as it is stored: lists in any order.
#[derive(Clone, Debug, Default, PartialEq, Eq)]
pub struct ConfState {
    pub voters: Vec<u64>,
    pub learners: Vec<u64>,
    pub voters_outgoing: Vec<u64>,
    pub learners_next: Vec<u64>,
    pub auto_leave: bool,
}

/// The names are the Rust's.
#[allow(clippy::enum_variant_names)]
#[derive(Clone, Copy, Debug, PartialEq, Eq)]
pub enum ConfChangeType {
    AddNode,
    RemoveNode,
    AddLearnerNode,
}

/// One change of a list. A change with `node_id` 0 is skipped.
#[derive(Clone, Copy, Debug, PartialEq, Eq)]
pub struct ConfChangeSingle {
    pub node_id: u64,
    pub change_type: ConfChangeType,
}

impl ConfChangeSingle {
    pub fn add_node(node_id: u64) -> Self {
        ConfChangeSingle { node_id, change_type: ConfChangeType::AddNode }
    }

    pub fn remove_node(node_id: u64) -> Self {
        ConfChangeSingle { node_id, change_type: ConfChangeType::RemoveNode }
    }

    pub fn add_learner_node(node_id: u64) -> Self {
        ConfChangeSingle { node_id, change_type: ConfChangeType::AddLearnerNode }
    }
}

#[derive(Clone, Copy, Debug, PartialEq, Eq)]
pub enum MapChangeType {
    Add,
    Remove,
}

/// Which boxes an answer begins or ceases to track, in order: for `apply_conf`.
pub type MapChange = Vec<(u64, MapChangeType)>;

/// What `simple`, `enter_joint` and `leave_joint` answer: the new configuration and what to track, for `apply_conf`; and how many entries of
/// the list did nothing.
#[derive(Clone, Debug, PartialEq, Eq)]
pub struct Answer {
    pub conf: Configuration,
    pub changes: MapChange,
    /// Entries of the list that at their turn found their box standing as asked, and put nothing into `changes`. Those with `node_id` 0
    /// are among them. Of `leave_joint`, which has no list, 0.
    pub idle: u64,
}

/// The number of a refusal that is not the library's: it has another layout than this file.
pub const OTHER_LAYOUT: u64 = u64::MAX;

/// The number with which `ConfState::compare` is refused where too few bytes are lent.
pub const NO_ROOM_FOR_LINES: u64 = 100;

/// Why a call was refused: the number, and the id that it concerns, else 0. `to_string` says it in words.
#[derive(Clone, Copy, Debug, PartialEq, Eq)]
pub struct Refused {
    pub number: u64,
    pub id: u64,
}

impl fmt::Display for Refused {
    fn fmt(&self, f: &mut fmt::Formatter<'_>) -> fmt::Result {
        let id = self.id;
        match self.number {
            1 => write!(f, "the state, the configuration or the log is malformed"),
            2 => write!(f, "a list is too long, or its ids and kinds are not equally many"),
            3 => write!(f, "a change has a kind above 2"),
            4 => write!(f, "a joint configuration cannot be entered from a joint one"),
            5 => write!(f, "a configuration that is not joint cannot be left"),
            6 => write!(f, "a simple change cannot be made in a joint configuration"),
            7 => write!(f, "voter {id} is not tracked"),
            8 => write!(f, "learner {id} is not tracked"),
            9 => write!(f, "learner {id} is an outgoing voter"),
            10 => write!(f, "learner {id} is an incoming voter"),
            11 => write!(f, "staged learner {id} is not tracked"),
            12 => write!(f, "staged learner {id} is not an outgoing voter"),
            13 => write!(f, "there are staged learners though the configuration is not joint"),
            14 => write!(f, "auto_leave is set though the configuration is not joint"),
            15 => write!(f, "a joint configuration cannot be entered without an incoming voter"),
            16 => write!(f, "{id} cannot be tracked: 64 ids are"),
            17 => write!(f, "no incoming voter would be left"),
            18 => write!(f, "more than one voter would change: enter a joint configuration for that"),
            19 => write!(f, "the script is longer than 65,536 bytes"),
            20 => write!(f, "the listing is longer than the output lent for it"),
            28 => write!(f, "the message is cut short"),
            29 => write!(
                f,
                "the message has a varint over ten bytes or 64 bits, or a wire type or field number that may not be there"
            ),
            30 => write!(f, "the message has more than 64 ids in a list"),
            31 => write!(f, "the message is longer than the bytes lent for it"),
            32 => write!(f, "a message is longer than 32,768 bytes"),
            NO_ROOM_FOR_LINES => write!(f, "the lines are longer than the bytes lent for them"),
            OTHER_LAYOUT => write!(f, "libcalls.a has another layout than dimecandle.rs"),
            number => write!(f, "refused with {number}"),
        }
    }
}

impl std::error::Error for Refused {}

impl Tracker {
    /// Nothing in any set, nothing tracked.
    pub fn new(max_inflight: u64) -> Tracker {
        Tracker { max_inflight, ..Tracker::default() }
    }

    /// A list of changes that changes at most one incoming voter in all. The answer is for `apply_conf`; the tracker itself stays as it
    /// is.
    pub fn simple(&self, changes: &[ConfChangeSingle]) -> Result<Answer, Refused> {
        let mut request = Request::of(SIMPLE, self);
        request.list(changes);
        Ok(request.answer()?.changed())
    }

    /// Enters a joint configuration by a list of changes. Answers as `simple` does.
    pub fn enter_joint(&self, auto_leave: bool, changes: &[ConfChangeSingle]) -> Result<Answer, Refused> {
        let mut request = Request::of(ENTER_JOINT, self);
        request.words[REQUEST_FLAG] = u64::from(auto_leave);
        request.list(changes);
        Ok(request.answer()?.changed())
    }

    /// Leaves a joint configuration. Answers as `simple` does.
    pub fn leave_joint(&self) -> Result<Answer, Refused> {
        Ok(Request::of(LEAVE_JOINT, self).answer()?.changed())
    }

    /// Takes over an answer: the configuration, and a fresh record, with this `next_idx`, for each box that is added.
    pub fn apply_conf(&mut self, conf: Configuration, changes: MapChange, next_idx: u64) -> Result<(), Refused> {
        let mut request = Request::of(APPLY_CONF, self);
        request.words[REQUEST_NEXT_IDX] = next_idx;
        put_configuration(&mut request.words[REQUEST_CONF..], &conf);
        put_log(&mut request.words[REQUEST_LOG..], &changes);
        let reply = request.answer()?;
        *self = reply.tracker();
        Ok(())
    }

    /// Runs the changes that make the configuration of a `ConfState`, each applied with this `next_idx`: all of them or none. Use this one
    /// by default: a refused `restore` leaves the tracker as it was, so no half of a damaged `ConfState` is taken over.
    pub fn restore(&mut self, next_idx: u64, state: &ConfState) -> Result<(), Refused> {
        let reply = Request::restoring(RESTORE, self, next_idx, state).answer()?;
        *self = reply.tracker();
        Ok(())
    }

    /// Runs the same changes as `restore`, and is refused where that is, with the same number and id. But the changes before the refused one
    /// stay, as they do in the Rust's own `restore`. Use this one for an import that wants to keep what was accepted before the refused step.
    pub fn restore_step_by_step(&mut self, next_idx: u64, state: &ConfState) -> Result<(), Refused> {
        let reply = Request::restoring(RESTORE_STEP_BY_STEP, self, next_idx, state).run()?;
        if reply.words[REPLY_NUMBER] != MALFORMED {
            *self = reply.tracker();
        }
        reply.verdict()
    }

    /// Whether this one box can be removed by `simple` now; number and id are those that `simple` with that removal would be refused with.
    /// No configuration is made to find out.
    pub fn can_unplug(&self, id: u64) -> Result<(), Refused> {
        let (mut state, mut verdict) = ([0; STATE], [0; VERDICT]);
        put_tracker(&mut state, self);
        // the entry reads the one and writes the other, each over its whole length
        same_layout(unsafe { dimecandle_unplug(state.as_ptr(), STATE, id, verdict.as_mut_ptr(), VERDICT) })?;
        refused(verdict)
    }

    /// The configuration as it is stored: ascending lists.
    pub fn to_conf_state(&self) -> Result<ConfState, Refused> {
        Ok(Request::of(TO_CONF_STATE, self).answer()?.conf_state())
    }

    /// Whether configuration and tracked boxes go together. Where they do not, `simple`, `enter_joint`, `leave_joint` and `can_unplug` are
    /// refused too, and so is each step of either restore; `in_order` says no. `apply_conf` and `to_conf_state` do not ask, nor does a
    /// restore of four empty lists, which has no step.
    pub fn check(&self) -> Result<(), Refused> {
        Request::of(CHECK, self).answer().map(|_| ())
    }

    /// Whether the check passes, no id is 0, the tracked boxes are exactly those in at least one of the four sets, and no box of
    /// `learners_next` is an incoming voter. Every tracker that comes from a new one by `restore`, by `restore_step_by_step` and by answers
    /// applied to the tracker that gave them, is. From a joint tracker in order `leave_joint` is accepted; and one in order with an incoming
    /// voter, written out and restored to a new tracker, gives its configuration back.
    pub fn in_order(&self) -> bool {
        Request::of(IN_ORDER, self).run().is_ok_and(|reply| reply.words[REPLY_YES] == 1)
    }
}

/// As it travels: a message in the Protocol Buffers encoding, with `voters` 1, `learners` 2, `voters_outgoing` 3, `learners_next` 4 and
/// `auto_leave` 5.
impl ConfState {
    /// No message that is written is longer.
    pub const LONGEST_MESSAGE: usize = 2_574;

    /// Reads a message. Numbers may be packed or single, fields may come in any order, unknown ones are skipped, and the last flag decides.
    pub fn read(bytes: &[u8]) -> Result<ConfState, Refused> {
        let mut words = [0; CONF];
        // the entry reads the one and writes the other, each over its whole length
        match unsafe { dimecandle_read_conf_state(bytes.as_ptr(), bytes.len(), words.as_mut_ptr(), CONF) } {
            0 => Ok(conf_state(&words)),
            TOO_FEW_WORDS => Err(Refused { number: OTHER_LAYOUT, id: 0 }),
            number => Err(Refused { number, id: 0 }),
        }
    }

    /// Writes the message to the front of the bytes, and says how long it is. The bytes after it stay as they are; of a refusal all do.
    pub fn write(&self, bytes: &mut [u8]) -> Result<usize, Refused> {
        let mut words = [0; CONF];
        put_conf_state(&mut words, self);
        // the entry reads the one and writes the other, each over its whole length
        let returned = unsafe { dimecandle_write_conf_state(words.as_ptr(), CONF, bytes.as_mut_ptr(), bytes.len()) };
        match returned.checked_sub(MESSAGE_REFUSED) {
            None => Ok(returned as usize),
            Some(MALFORMED) => Err(Refused { number: OTHER_LAYOUT, id: 0 }),
            Some(number) => Err(Refused { number, id: 0 }),
        }
    }

    /// The message in bytes of its own.
    pub fn to_bytes(&self) -> Result<Vec<u8>, Refused> {
        let mut bytes = vec![0; ConfState::LONGEST_MESSAGE];
        let length = self.write(&mut bytes)?;
        bytes.truncate(length);
        Ok(bytes)
    }

    /// No lines of `compare` are longer.
    pub const LONGEST_LINES: usize = 20_761;

    /// Says where two messages of at most 32,768 bytes each disagree, their lists taken as sets: a line for each id whose sets
    /// differ, such as `2 voters -> learners` or `3 none -> voters+learners_next`, ids ascending; then, if it differs, one for
    /// the flag, such as `auto_leave false -> true`. Nothing where they mean the same. The lines are written to the front of the
    /// bytes lent; those after them stay as they are, and of a refusal all do. A fault in the first message is named before one
    /// in the second.
    pub fn compare<'a>(first: &[u8], second: &[u8], out: &'a mut [u8]) -> Result<&'a str, Refused> {
        let [(one, n), (other, m)] = [first, second].map(|bytes| (bytes.as_ptr(), bytes.len()));
        // the entry reads the two and writes the third, each over its whole length
        let returned = unsafe { dimecandle_compare(one, n, other, m, out.as_mut_ptr(), out.len()) };
        match returned.checked_sub(MESSAGE_REFUSED) {
            Some(number) => Err(Refused { number, id: 0 }),
            None => lines(out, returned).ok_or(Refused { number: OTHER_LAYOUT, id: 0 }),
        }
    }
}

/// So many bytes from the front, which are text.
fn lines(out: &[u8], length: u64) -> Option<&str> {
    std::str::from_utf8(out.get(..usize::try_from(length).ok()?)?).ok()
}

// ** The entries, and their words: docs/EMBEDDING.md

unsafe extern "C" {
    fn dimecandle_call(request: *const u8, request_len: usize, reply: *mut u8, reply_len: usize) -> u64;
    fn dimecandle_unplug(state: *const u64, state_len: usize, id: u64, verdict: *mut u64, verdict_len: usize) -> u64;
    fn dimecandle_read_conf_state(bytes: *const u8, bytes_len: usize, conf_state: *mut u64, conf_state_len: usize) -> u64;
    fn dimecandle_write_conf_state(conf_state: *const u64, conf_state_len: usize, bytes: *mut u8, bytes_len: usize) -> u64;
    fn dimecandle_compare(
        first: *const u8,
        first_len: usize,
        second: *const u8,
        second_len: usize,
        out: *mut u8,
        out_len: usize,
    ) -> u64;
}

/// What the entries on messages return: of reading a message 0, the number of a refusal, or this where their layout has more words; of
/// writing it, and of comparing two, a length, or the other and the number of a refusal.
const TOO_FEW_WORDS: u64 = 100;
const MESSAGE_REFUSED: u64 = 1 << 32;

/// The other entries return 0, unless they were handed lengths, a call or words that its layout has not.
fn same_layout(returned: u64) -> Result<(), Refused> {
    match returned {
        0 => Ok(()),
        _ => Err(Refused { number: OTHER_LAYOUT, id: 0 }),
    }
}

// A word is handed over as it lies in memory. That libcalls.a is for x86-64 the linker says.
#[cfg(not(target_endian = "little"))]
compile_error!("libcalls.a is for x86-64: its words are little-endian");

const CHECK: u64 = 0;
const IN_ORDER: u64 = 1;
const SIMPLE: u64 = 2;
const ENTER_JOINT: u64 = 3;
const LEAVE_JOINT: u64 = 4;
const APPLY_CONF: u64 = 5;
const TO_CONF_STATE: u64 = 6;
const RESTORE: u64 = 7;
const RESTORE_STEP_BY_STEP: u64 = 8;

const MALFORMED: u64 = 1;

const IDS: usize = 64;
const SET: usize = IDS + 1;
const CONF: usize = 4 * SET + 1;
const RECORD: usize = 10;
const STATE: usize = CONF + SET + IDS * RECORD + 1;
const LIST_PLACES: usize = 260;
const LIST: usize = 2 * (LIST_PLACES + 1);
const LONGEST_LIST: usize = 256;
const LOG_PLACES: usize = 256;
const LOG: usize = 2 * LOG_PLACES + 1;
const VERDICT: usize = 2;

const REQUEST_CALL: usize = 0;
const REQUEST_STATE: usize = 1;
const REQUEST_FLAG: usize = REQUEST_STATE + STATE;
const REQUEST_NEXT_IDX: usize = REQUEST_FLAG + 1;
const REQUEST_LIST: usize = REQUEST_NEXT_IDX + 1;
const REQUEST_CONF: usize = REQUEST_LIST + LIST;
const REQUEST_LOG: usize = REQUEST_CONF + CONF;
const REQUEST_CONF_STATE: usize = REQUEST_LOG + LOG;
const REQUEST: usize = REQUEST_CONF_STATE + CONF;

const REPLY_NUMBER: usize = 0;
const REPLY_ID: usize = 1;
const REPLY_YES: usize = 2;
const REPLY_STATE: usize = 3;
const REPLY_LOG: usize = REPLY_STATE + STATE;
const REPLY_CONF_STATE: usize = REPLY_LOG + LOG;
const REPLY_IDLE: usize = REPLY_CONF_STATE + CONF;
const REPLY: usize = REPLY_IDLE + 1;

const _: () = assert!(REQUEST == 2_527 && REPLY == 1_745 && STATE == 967);

struct Request {
    words: Vec<u64>,
}

struct Reply {
    words: Vec<u64>,
}

impl Request {
    fn of(call: u64, tracker: &Tracker) -> Request {
        let mut words = vec![0; REQUEST];
        words[REQUEST_CALL] = call;
        put_tracker(&mut words[REQUEST_STATE..], tracker);
        Request { words }
    }

    fn restoring(call: u64, tracker: &Tracker, next_idx: u64, state: &ConfState) -> Request {
        let mut request = Request::of(call, tracker);
        request.words[REQUEST_NEXT_IDX] = next_idx;
        put_conf_state(&mut request.words[REQUEST_CONF_STATE..], state);
        request
    }

    /// Of a list that is too long as much as shows it.
    fn list(&mut self, changes: &[ConfChangeSingle]) {
        let list = &mut self.words[REQUEST_LIST..];
        let shown = &changes[..changes.len().min(LONGEST_LIST + 1)];
        for (place, change) in shown.iter().enumerate() {
            list[place] = change.node_id;
            list[LIST_PLACES + 1 + place] = change.change_type as u64;
        }
        list[LIST_PLACES] = shown.len() as u64;
        list[2 * LIST_PLACES + 1] = shown.len() as u64;
    }

    /// The reply, a refusal or not.
    fn run(&self) -> Result<Reply, Refused> {
        let mut words = vec![0u64; REPLY];
        // the entry reads the one and writes the other, each over its whole length
        same_layout(unsafe { dimecandle_call(self.words.as_ptr().cast(), REQUEST * 8, words.as_mut_ptr().cast(), REPLY * 8) })?;
        Ok(Reply { words })
    }

    /// The reply to an accepted call.
    fn answer(&self) -> Result<Reply, Refused> {
        let reply = self.run()?;
        reply.verdict()?;
        Ok(reply)
    }
}

impl Reply {
    fn verdict(&self) -> Result<(), Refused> {
        refused([self.words[REPLY_NUMBER], self.words[REPLY_ID]])
    }

    fn changed(&self) -> Answer {
        Answer {
            conf: configuration(&self.words[REPLY_STATE..]),
            changes: log(&self.words[REPLY_LOG..]),
            idle: self.words[REPLY_IDLE],
        }
    }

    fn tracker(&self) -> Tracker {
        tracker(&self.words[REPLY_STATE..])
    }

    fn conf_state(&self) -> ConfState {
        conf_state(&self.words[REPLY_CONF_STATE..])
    }
}

/// What a number and an id say.
fn refused([number, id]: [u64; VERDICT]) -> Result<(), Refused> {
    match number {
        0 => Ok(()),
        number => Err(Refused { number, id }),
    }
}

/// Of more than 64 ids the first 64, with a count that says so: the library refuses it.
fn put_ids<'a>(words: &mut [u64], ids: impl ExactSizeIterator<Item = &'a u64>) {
    words[IDS] = ids.len() as u64;
    for (word, id) in words[..IDS].iter_mut().zip(ids) {
        *word = *id;
    }
}

/// A reply has no count above 64.
fn ids(words: &[u64]) -> &[u64] {
    &words[..words[IDS].min(IDS as u64) as usize]
}

fn set(words: &[u64]) -> BTreeSet<u64> {
    ids(words).iter().copied().collect()
}

fn put_configuration(words: &mut [u64], conf: &Configuration) {
    for (at, set) in [&conf.incoming, &conf.outgoing, &conf.learners, &conf.learners_next].into_iter().enumerate() {
        put_ids(&mut words[at * SET..], set.iter());
    }
    words[4 * SET] = u64::from(conf.auto_leave);
}

fn configuration(words: &[u64]) -> Configuration {
    Configuration {
        incoming: set(words),
        outgoing: set(&words[SET..]),
        learners: set(&words[2 * SET..]),
        learners_next: set(&words[3 * SET..]),
        auto_leave: words[4 * SET] == 1,
    }
}

fn put_conf_state(words: &mut [u64], state: &ConfState) {
    for (at, list) in [&state.voters, &state.learners, &state.voters_outgoing, &state.learners_next].into_iter().enumerate() {
        put_ids(&mut words[at * SET..], list.iter());
    }
    words[4 * SET] = u64::from(state.auto_leave);
}

fn conf_state(words: &[u64]) -> ConfState {
    ConfState {
        voters: ids(words).to_vec(),
        learners: ids(&words[SET..]).to_vec(),
        voters_outgoing: ids(&words[2 * SET..]).to_vec(),
        learners_next: ids(&words[3 * SET..]).to_vec(),
        auto_leave: words[4 * SET] == 1,
    }
}

fn put_log(words: &mut [u64], log: &MapChange) {
    words[2 * LOG_PLACES] = log.len() as u64;
    for (entry, (id, kind)) in words[..2 * LOG_PLACES].chunks_exact_mut(2).zip(log) {
        entry[0] = *id;
        entry[1] = *kind as u64;
    }
}

fn log(words: &[u64]) -> MapChange {
    let kind = |word: u64| if word == 0 { MapChangeType::Add } else { MapChangeType::Remove };
    let count = words[2 * LOG_PLACES] as usize;
    words[..2 * LOG_PLACES].chunks_exact(2).take(count).map(|entry| (entry[0], kind(entry[1]))).collect()
}

fn put_tracker(words: &mut [u64], tracker: &Tracker) {
    put_configuration(words, &tracker.conf);
    put_ids(&mut words[CONF..], tracker.progress.keys());
    let records = &mut words[CONF + SET..][..IDS * RECORD];
    for (record, progress) in records.chunks_exact_mut(RECORD).zip(tracker.progress.values()) {
        record.copy_from_slice(&[
            progress.matched,
            progress.next_idx,
            progress.state as u64,
            u64::from(progress.paused),
            progress.pending_snapshot,
            progress.pending_request_snapshot,
            u64::from(progress.recent_active),
            progress.max_inflight,
            progress.commit_group_id,
            progress.committed_index,
        ]);
    }
    words[STATE - 1] = tracker.max_inflight;
}

fn tracker(words: &[u64]) -> Tracker {
    let records = words[CONF + SET..].chunks_exact(RECORD).map(progress);
    Tracker {
        conf: configuration(words),
        progress: ids(&words[CONF..]).iter().copied().zip(records).collect(),
        max_inflight: words[STATE - 1],
    }
}

fn progress(record: &[u64]) -> Progress {
    Progress {
        matched: record[0],
        next_idx: record[1],
        state: match record[2] {
            0 => ProgressState::Probe,
            1 => ProgressState::Replicate,
            _ => ProgressState::Snapshot,
        },
        paused: record[3] == 1,
        pending_snapshot: record[4],
        pending_request_snapshot: record[5],
        recent_active: record[6] == 1,
        max_inflight: record[7],
        commit_group_id: record[8],
        committed_index: record[9],
    }
}
