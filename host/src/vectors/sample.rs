//! The sample: what the groups of the comparison hand to a subject, sorted by what it shows.

use crate::compare::Comparison;
use crate::groups::scripts::{longest_listing, script};
use crate::groups::{Entry, Group, Size, GROUPS};
use crate::model::Model;
use crate::random::Random;
use crate::script::LONGEST_SCRIPT;
use crate::subject::Subject;
use crate::words::{Block, Reply, Request, REPLY_BYTES, REQUEST_BYTES};
use std::cell::RefCell;
use std::collections::BTreeMap;

pub struct Taken {
    pub calls: Vec<Box<Request>>,
    pub scripts: Vec<Vec<u8>>,
}

/// Calls that a group gives of one kind: the same call, answered with the same number. Examples, the paper's and those worked by hand, are
/// all taken.
const CALLS_OF_A_KIND: usize = 1;
const EXAMPLES: usize = 100;

/// Scripts that a group gives.
const SCRIPTS_OF_A_GROUP: usize = 10;

/// The groups on neighbours are left out: their calls are those of other groups.
pub fn take() -> Taken {
    let mut taken = Taken { calls: vec![], scripts: vec![] };
    let neighbours = |group: &&Group| group.name.starts_with("neighbours");
    let asks = |group: &&Group| matches!(group.entry, Entry::Call | Entry::Replay);
    for group in GROUPS.iter().filter(|group| asks(group) && !neighbours(group)) {
        let of_a_kind = if group.name.contains("examples") { EXAMPLES } else { CALLS_OF_A_KIND };
        let recorder = Recorder { of_a_kind, chosen: RefCell::new(Chosen::new(group.name)) };
        let mut random = Random::new(1, group.name);
        let compared = (group.run)(&mut Comparison::new(&recorder), &mut random, Size::Quick);
        assert!(compared.is_ok(), "the model differs from the Rust: run `host compare --model`");
        let chosen = recorder.chosen.into_inner();
        taken.calls.extend(chosen.calls.into_values().flat_map(|(_, calls)| calls));
        taken.scripts.extend(chosen.scripts);
    }
    taken.scripts.push(script(&longest_listing()));
    for (place, request) in taken.calls.iter_mut().enumerate() {
        if place % 8 != 0 {
            small_records(request);
        }
    }
    taken
}

/// Records are handed on as they are: but for every eighth case, numbers that take one byte do.
fn small_records(request: &mut Request) {
    for record in &mut request.state.records {
        record.words_mut().iter_mut().for_each(|word| *word %= 256);
    }
}

/// The model as a subject, which keeps some of what it is asked.
struct Recorder {
    of_a_kind: usize,
    chosen: RefCell<Chosen>,
}

/// How many calls of a kind were seen, and those of them that were kept.
type Kept = (usize, Vec<Box<Request>>);

struct Chosen {
    random: Random,
    /// by call and number
    calls: BTreeMap<(u64, u64), Kept>,
    seen_scripts: usize,
    /// the last one, which is handed on with several outputs
    seen_last: Vec<u8>,
    scripts: Vec<Vec<u8>>,
}

impl Chosen {
    fn new(name: &str) -> Chosen {
        Chosen { random: Random::new(2, name), calls: BTreeMap::new(), seen_scripts: 0, seen_last: vec![], scripts: vec![] }
    }
}

/// Keeps `most` of all that are seen, each with the same chance.
fn keep<T>(kept: &mut Vec<T>, seen: usize, most: usize, random: &mut Random, item: impl FnOnce() -> T) {
    if kept.len() < most {
        kept.push(item());
    } else {
        let place = random.below(seen);
        if place < most {
            kept[place] = item();
        }
    }
}

impl Subject for Recorder {
    fn call(&self, request: &[u8], reply: &mut [u8]) -> u64 {
        let value = Model::PAPER.call(request, reply);
        if value == 0 && request.len() == REQUEST_BYTES {
            let mut answer = Box::new(Reply::zero());
            answer.bytes_mut().copy_from_slice(&reply[..REPLY_BYTES]);
            let mut words = Request::new(0);
            words.bytes_mut().copy_from_slice(request);
            let Chosen { random, calls, .. } = &mut *self.chosen.borrow_mut();
            let (seen, kept) = calls.entry((words.call, answer.number)).or_default();
            *seen += 1;
            keep(kept, *seen, self.of_a_kind, random, || words);
        }
        value
    }

    /// Not kept: a case is a call or a script.
    fn unplug(&self, state: &[u64], id: u64, verdict: &mut [u64]) -> u64 {
        Model::PAPER.unplug(state, id, verdict)
    }

    /// Not kept either, like what is written and what is said of two.
    fn read_conf_state(&self, bytes: &[u8], conf_state: &mut [u64]) -> u64 {
        Model::PAPER.read_conf_state(bytes, conf_state)
    }

    fn write_conf_state(&self, conf_state: &[u64], bytes: &mut [u8]) -> u64 {
        Model::PAPER.write_conf_state(conf_state, bytes)
    }

    fn compare(&self, first: &[u8], second: &[u8], out: &mut [u8]) -> u64 {
        Model::PAPER.compare(first, second, out)
    }

    fn replay(&self, script: &[u8], out: &mut [u8]) -> u64 {
        let Chosen { random, scripts, seen_scripts, seen_last, .. } = &mut *self.chosen.borrow_mut();
        if script.len() <= LONGEST_SCRIPT && (*seen_scripts == 0 || script != seen_last) {
            *seen_scripts += 1;
            *seen_last = script.to_vec();
            keep(scripts, *seen_scripts, SCRIPTS_OF_A_GROUP, random, || script.to_vec());
        }
        Model::PAPER.replay(script, out)
    }
}
