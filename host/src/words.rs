//! The byte layout of `dimecandle_call`, whose state is also that of `dimecandle_unplug` and whose lists are also those of the two entries
//! on messages: docs/EMBEDDING.md, block by block.
//!
//! Every block is a `#[repr(C)]` struct of `u64`, so a value of it is its own bytes on a little-endian processor. A flag, a state or a
//! kind is kept as the whole word that it travels in: these types also hold what is malformed, and words that no field can hold.

use std::mem::size_of;
use std::slice;

pub const CAPACITY: usize = 64;
pub const LIST_PLACES: usize = 260;
pub const LOG_PLACES: usize = 256;

/// The longest change list that is read.
pub const LONGEST_LIST: usize = 256;

#[repr(C)]
#[derive(Clone, Copy, PartialEq, Eq)]
pub struct Ids {
    pub ids: [u64; CAPACITY],
    pub count: u64,
}

#[repr(C)]
#[derive(Clone, Copy, PartialEq, Eq)]
pub struct Conf {
    pub incoming: Ids,
    pub outgoing: Ids,
    pub learners: Ids,
    pub learners_next: Ids,
    pub auto_leave: u64,
}

#[repr(C)]
#[derive(Clone, Copy, PartialEq, Eq, Debug)]
pub struct Record {
    pub matched: u64,
    pub next_idx: u64,
    pub state: u64,
    pub paused: u64,
    pub pending_snapshot: u64,
    pub pending_request_snapshot: u64,
    pub recent_active: u64,
    pub max_inflight: u64,
    pub commit_group_id: u64,
    pub committed_index: u64,
}

#[repr(C)]
#[derive(Clone, Copy, PartialEq, Eq)]
pub struct State {
    pub conf: Conf,
    pub tracked: Ids,
    pub records: [Record; CAPACITY],
    pub max_inflight: u64,
}

#[repr(C)]
#[derive(Clone, Copy, PartialEq, Eq)]
pub struct List {
    pub ids: [u64; LIST_PLACES],
    pub ids_count: u64,
    pub kinds: [u64; LIST_PLACES],
    pub kinds_count: u64,
}

#[repr(C)]
#[derive(Clone, Copy, PartialEq, Eq, Debug)]
pub struct Entry {
    pub id: u64,
    pub kind: u64,
}

#[repr(C)]
#[derive(Clone, Copy, PartialEq, Eq)]
pub struct Log {
    pub entries: [Entry; LOG_PLACES],
    pub count: u64,
}

#[repr(C)]
#[derive(Clone, Copy, PartialEq, Eq)]
pub struct ConfState {
    pub voters: Ids,
    pub learners: Ids,
    pub voters_outgoing: Ids,
    pub learners_next: Ids,
    pub auto_leave: u64,
}

#[repr(C)]
#[derive(Clone, Copy, PartialEq, Eq)]
pub struct Request {
    pub call: u64,
    pub state: State,
    pub auto_leave: u64,
    pub next_idx: u64,
    pub list: List,
    pub conf: Conf,
    pub log: Log,
    pub conf_state: ConfState,
}

#[repr(C)]
#[derive(Clone, Copy, PartialEq, Eq)]
pub struct Reply {
    pub number: u64,
    pub id: u64,
    pub yes: u64,
    pub state: State,
    pub log: Log,
    pub conf_state: ConfState,
    /// entries of the list that left their id's standing unchanged and logged nothing
    pub idle: u64,
}

/// Number and id: of `dimecandle_unplug` all that it answers, both 0 where a box can be unplugged.
pub type Verdict = [u64; VERDICT_WORDS];

pub const REQUEST_BYTES: usize = 20_216;
pub const REPLY_BYTES: usize = 13_960;
pub const STATE_WORDS: usize = 967;
pub const VERDICT_WORDS: usize = 2;
pub const CONF_STATE_WORDS: usize = 261;
const _: () = assert!(size_of::<Request>() == REQUEST_BYTES && size_of::<Reply>() == REPLY_BYTES);
const _: () = assert!(size_of::<State>() == 8 * STATE_WORDS && size_of::<ConfState>() == 8 * CONF_STATE_WORDS);

/// A struct of nothing but `u64`.
///
/// # Safety
/// The struct is `#[repr(C)]`, and each of its fields is a `u64`, an array of a block or a block.
pub unsafe trait Block: Copy {
    /// All words zero.
    fn zero() -> Self {
        // a block is words, and a word may be zero
        unsafe { std::mem::zeroed() }
    }

    fn words(&self) -> &[u64] {
        unsafe { slice::from_raw_parts((self as *const Self).cast(), size_of::<Self>() / 8) }
    }

    fn words_mut(&mut self) -> &mut [u64] {
        unsafe { slice::from_raw_parts_mut((self as *mut Self).cast(), size_of::<Self>() / 8) }
    }

    fn bytes(&self) -> &[u8] {
        unsafe { slice::from_raw_parts((self as *const Self).cast(), size_of::<Self>()) }
    }

    fn bytes_mut(&mut self) -> &mut [u8] {
        unsafe { slice::from_raw_parts_mut((self as *mut Self).cast(), size_of::<Self>()) }
    }
}

unsafe impl Block for Ids {}
unsafe impl Block for Conf {}
unsafe impl Block for Record {}
unsafe impl Block for State {}
unsafe impl Block for List {}
unsafe impl Block for Log {}
unsafe impl Block for ConfState {}
unsafe impl Block for Request {}
unsafe impl Block for Reply {}

impl Ids {
    /// These ids, in this order. A set has 64 places: of more ids the first 64 and the whole count.
    pub fn of(ids: &[u64]) -> Ids {
        let mut set = Ids::zero();
        for (place, &id) in set.ids.iter_mut().zip(ids) {
            *place = id;
        }
        set.count = ids.len() as u64;
        set
    }

    /// The places that the count covers.
    pub fn used(&self) -> &[u64] {
        &self.ids[..self.count.min(CAPACITY as u64) as usize]
    }
}

impl Conf {
    /// The four sets in the order of the layout.
    pub fn sets(&self) -> [&Ids; 4] {
        [&self.incoming, &self.outgoing, &self.learners, &self.learners_next]
    }

    pub fn sets_mut(&mut self) -> [&mut Ids; 4] {
        [&mut self.incoming, &mut self.outgoing, &mut self.learners, &mut self.learners_next]
    }
}

impl ConfState {
    /// The four lists in the order of the layout.
    pub fn lists(&self) -> [&Ids; 4] {
        [&self.voters, &self.learners, &self.voters_outgoing, &self.learners_next]
    }

    pub fn lists_mut(&mut self) -> [&mut Ids; 4] {
        [&mut self.voters, &mut self.learners, &mut self.voters_outgoing, &mut self.learners_next]
    }
}

/// A change: an id and a kind.
pub type Change = (u64, u64);

pub const ADD_NODE: u64 = 0;
pub const REMOVE_NODE: u64 = 1;
pub const ADD_LEARNER_NODE: u64 = 2;

impl List {
    /// These changes, at most 260 of them.
    pub fn of(changes: &[Change]) -> List {
        let mut list = List::zero();
        list.set(changes);
        list
    }

    pub fn set(&mut self, changes: &[Change]) {
        for (place, &(id, kind)) in changes.iter().enumerate() {
            self.ids[place] = id;
            self.kinds[place] = kind;
        }
        let used = self.ids_count.max(self.kinds_count).min(LIST_PLACES as u64) as usize;
        for place in changes.len()..used {
            self.ids[place] = 0;
            self.kinds[place] = 0;
        }
        self.ids_count = changes.len() as u64;
        self.kinds_count = changes.len() as u64;
    }

    pub fn used_ids(&self) -> &[u64] {
        &self.ids[..self.ids_count.min(LIST_PLACES as u64) as usize]
    }

    pub fn used_kinds(&self) -> &[u64] {
        &self.kinds[..self.kinds_count.min(LIST_PLACES as u64) as usize]
    }

    /// The changes, of a list whose ids and kinds are of equal length.
    pub fn changes(&self) -> impl Iterator<Item = Change> + '_ {
        self.used_ids().iter().copied().zip(self.used_kinds().iter().copied())
    }
}

pub const ADD: u64 = 0;
pub const REMOVE: u64 = 1;

impl Log {
    /// These entries, in this order. A log has 256 places: of more entries the first 256 and the whole count.
    pub fn of(entries: &[Entry]) -> Log {
        let mut log = Log::zero();
        for (place, entry) in log.entries.iter_mut().zip(entries) {
            *place = *entry;
        }
        log.count = entries.len() as u64;
        log
    }

    pub fn used(&self) -> &[Entry] {
        &self.entries[..self.count.min(LOG_PLACES as u64) as usize]
    }
}

impl Request {
    /// A call with every block zero: the fresh state with `max_inflight` 0, and empty arguments. Too large to be moved about by value.
    pub fn new(call: u64) -> Box<Request> {
        let mut request = Box::new(Request::zero());
        request.call = call;
        request
    }
}

impl Reply {
    pub fn verdict(&self) -> Verdict {
        [self.number, self.id]
    }

    /// What a refusal gives back, before its number and id: the state given, an empty log, empty lists, no idle entry.
    pub fn giving_back(&mut self, state: &State) {
        (self.number, self.id, self.yes, self.idle) = (0, 0, 0, 0);
        self.state = *state;
        self.log = Log::zero();
        self.conf_state = ConfState::zero();
    }
}
