//! One input through the subject, the Rust and the paper. Every word of every reply and every byte of every listing is compared. Messages
//! are in compare/messages.rs, and two of them that are compared with each other in compare/pairs.rs.
//!
//! The subject has to agree with the Rust wherever the Rust has an answer (calls.rs, `in_domain`), and with the paper everywhere: also
//! in which of several faults is named, in refusals that the paper adds, and in the bytes that stay as they were.

pub mod messages;
pub mod pairs;

use crate::beside::{Beside, Share};
use crate::calls::{self, call_in_domain, in_domain, paper_unplug, removal, same_group, LEAVE_JOINT};
use crate::model::Model;
use crate::oracle::{self, rust_listing, Rust};
use crate::script::{LONGEST_SCRIPT, NO_ROOM, TOO_LONG};
use crate::show;
use crate::subject::Subject;
use crate::words::{Block, ConfState, Reply, Request, State, Verdict, REPLY_BYTES, VERDICT_WORDS};
use std::hint::black_box;

/// What the subject differs from.
#[derive(Clone, Copy, PartialEq, Eq, Debug)]
pub enum Against {
    Rust,
    Paper,
}

impl Against {
    pub fn name(self) -> &'static str {
        match self {
            Against::Rust => "the Rust",
            Against::Paper => "the paper's rules",
        }
    }
}

pub struct Difference {
    pub against: Against,
    pub what: String,
}

/// An input that shows a difference.
#[derive(Clone)]
pub enum Input {
    Call(Box<Request>),
    /// A call through dimecandle.rs.
    Wrapped(Box<Request>),
    /// A request's state, of which groups/order.rs asks several calls.
    State(Box<Request>),
    /// A state and the id that `dimecandle_unplug` is asked about.
    Unplug(Box<State>, u64),
    Script(Vec<u8>),
    /// Bytes that are read as a message.
    Message(Vec<u8>),
    /// Lists that are written as a message.
    Lists(Box<ConfState>),
    /// Two messages of which is said where they differ.
    Pair(Vec<u8>, Vec<u8>),
    /// A test of its own, which has no smaller form; it says itself what it did.
    Other(String),
}

/// Which of the two subjects.
#[derive(Clone, Copy, PartialEq, Eq)]
pub enum Side {
    First,
    Second,
}

pub struct Failure {
    pub input: Input,
    pub difference: Difference,
}

pub type Compared = Result<(), Box<Failure>>;

/// Of `simple`, of `enter_joint` and of `leave_joint`: how many steps, and how many with a quorum before and after. The others have none
/// before.
pub type Held = [[u64; 2]; 3];

/// Steps held against document 02, i).
#[derive(Clone, Copy, Default)]
pub struct Steps {
    pub held: Held,
    /// those of few ids, held plainly too, and how many pairs of quorums they have
    pub plainly: u64,
    pub pairs: u64,
}

/// How many entries of accepted lists were looked at, in each of the two ways of oracle/idle.rs.
#[derive(Default)]
pub struct Entries {
    pub plainly: u64,
    pub repaired: u64,
}

/// Said where it is the Rust and the paper that differ.
const AS_THE_PAPER: &str = "\nthe model of the paper answers as the subject does";

/// Bytes lent beyond a reply, which have to stay as they are.
const TAIL: usize = 40;

pub struct Comparison<'a> {
    /// the one whose turn it is: the first, or the second
    pub subject: &'a dyn Subject,
    first: &'a dyn Subject,
    second: Option<Beside<'a>>,
    /// where a difference was found; this one alone is then asked, on the way to a smaller input
    pub differs: Option<Side>,
    rust: Rust,
    replies: [Box<Reply>; 3],
    lent: Vec<u8>,
    /// inputs compared so far, and those of them that the Rust had an answer to
    pub inputs: u64,
    pub with_rust: u64,
    /// calls that the paper accepts
    pub accepted: u64,
    /// lines that are right of two messages
    pub lines: u64,
    /// what a group says of its inputs itself
    pub remark: String,
    other_fault: u64,
    numbers: Numbers,
    pub steps: Steps,
}

/// How often the paper gave each number.
pub type Numbers = [u64; 33];

const NO_NUMBER: Numbers = [0; 33];

/// What is counted over all groups.
pub struct Totals {
    pub numbers: Numbers,
    /// answers in which the Rust, walking a hash set, named another fault of the group than the paper does
    pub other_fault: u64,
    pub entries: Entries,
    pub steps: Steps,
}

impl Default for Totals {
    fn default() -> Totals {
        Totals { numbers: NO_NUMBER, other_fault: 0, entries: Entries::default(), steps: Steps::default() }
    }
}

impl Totals {
    pub fn add(&mut self, more: &Totals) {
        for (count, more) in self.numbers.iter_mut().zip(more.numbers) {
            *count += more;
        }
        self.other_fault += more.other_fault;
        self.entries.plainly += more.entries.plainly;
        self.entries.repaired += more.entries.repaired;
        for (count, more) in self.steps.held.as_flattened_mut().iter_mut().zip(more.steps.held.as_flattened()) {
            *count += more;
        }
        self.steps.plainly += more.steps.plainly;
        self.steps.pairs += more.steps.pairs;
    }
}

impl<'a> Comparison<'a> {
    pub fn new(subject: &'a dyn Subject) -> Comparison<'a> {
        Comparison::with_second(subject, None)
    }

    /// The second is asked a share of the inputs too.
    pub fn with_second(first: &'a dyn Subject, second: Option<&'a dyn Subject>) -> Comparison<'a> {
        Comparison {
            subject: first,
            first,
            second: second.map(Beside::new),
            differs: None,
            rust: Rust::default(),
            replies: [(); 3].map(|()| Box::new(Reply::zero())),
            lent: vec![0; REPLY_BYTES + TAIL],
            inputs: 0,
            with_rust: 0,
            accepted: 0,
            lines: 0,
            remark: String::new(),
            other_fault: 0,
            numbers: NO_NUMBER,
            steps: Steps::default(),
        }
    }

    // ** The two sides

    /// Before a group: its counts are those since then.
    pub fn begin(&mut self, group: &'static str, share: Share) {
        (self.inputs, self.with_rust, self.accepted, self.lines) = (0, 0, 0, 0);
        (self.subject, self.differs) = (self.first, None);
        self.remark.clear();
        if let Some(second) = &mut self.second {
            second.begin(group, share);
        }
    }

    /// How many of the group's inputs the second has been asked, if there is one.
    pub fn asked_second(&self) -> Option<u64> {
        self.second.as_ref().map(|second| second.asked)
    }

    /// Judges the first and, where it is asked this input, the second: the first difference.
    pub fn each_side(&mut self, mut judge: impl FnMut(&mut Self) -> Option<Difference>) -> Option<Difference> {
        let difference = judge(self);
        if self.differs.is_none() && difference.is_some() {
            self.differs = Some(Side::First);
        }
        difference.or_else(|| self.second_side(judge))
    }

    /// Judges the second alone, where it is asked this input.
    pub fn second_side(&mut self, judge: impl FnOnce(&mut Self) -> Option<Difference>) -> Option<Difference> {
        let inputs = self.inputs;
        let second = self.second.as_mut().filter(|_| self.differs.is_none())?;
        if !second.takes(inputs) {
            return None;
        }
        self.subject = second.subject;
        let difference = judge(self);
        match &difference {
            Some(_) => self.differs = Some(Side::Second),
            None => self.subject = self.first,
        }
        difference
    }

    // ** Calls

    /// Compares one call.
    pub fn call(&mut self, request: &Request) -> Compared {
        self.inputs += 1;
        let difference = self.call_difference(request);
        self.count(self.replies[0].number);
        self.accepted += u64::from(self.replies[0].number == 0);
        match difference {
            None => Ok(()),
            Some(difference) => Err(Box::new(Failure { input: Input::Call(Box::new(*request)), difference })),
        }
    }

    /// Compares every call of the table that takes nothing beside the state.
    pub fn plain_calls(&mut self, request: &mut Request) -> Compared {
        for call in calls::CALLS.iter().filter(|call| call.takes == calls::Takes::Nothing) {
            request.call = call.number;
            self.call(request)?;
        }
        Ok(())
    }

    /// The reply of the paper, and the Rust's where it has one.
    pub fn expected(&mut self, request: &Request) -> (&Reply, Option<&Reply>) {
        let call = calls::numbered(request.call).expect("a call of the table");
        let [paper, rust, _] = &mut self.replies;
        paper.giving_back(&request.state);
        (call.paper)(&Model::PAPER, request, paper);
        if !call_in_domain(request, paper) {
            return (paper, None);
        }
        rust.giving_back(&request.state);
        self.rust.answer(request, rust);
        (paper, Some(rust))
    }

    /// The subject's reply to the last call that was compared.
    pub fn answer(&self) -> &Reply {
        &self.replies[2]
    }

    pub fn into_totals(self) -> Totals {
        Totals { numbers: self.numbers, other_fault: self.other_fault, entries: self.rust.entries, steps: self.steps }
    }

    pub fn call_difference(&mut self, request: &Request) -> Option<Difference> {
        let with_rust = self.expected(request).1.is_some();
        self.with_rust += u64::from(with_rust);
        let difference = self.each_side(|this| this.reply_difference(request, with_rust));
        let [paper, rust, _] = &self.replies;
        self.other_fault += u64::from(difference.is_none() && with_rust && rust.verdict() != paper.verdict());
        difference
    }

    /// Asks the subject, and holds its reply against the Rust's, where there is one, and the paper's: those of `expected`.
    pub fn reply_difference(&mut self, request: &Request, with_rust: bool) -> Option<Difference> {
        if let Err(what) = self.ask(request) {
            return Some(from_the_paper(what));
        }
        let [paper, rust, subject] = &self.replies;
        if with_rust && !agrees(request, subject, rust) {
            let mut what = show::differences(subject, rust);
            if subject == paper {
                what.push_str(AS_THE_PAPER);
            }
            return Some(Difference { against: Against::Rust, what });
        }
        (subject != paper).then(|| from_the_paper(show::differences(subject, paper)))
    }

    /// The subject's reply into its place. The request stays as it is, and so do the bytes after the reply.
    fn ask(&mut self, request: &Request) -> Result<(), String> {
        const STALE: u8 = 0xa5;
        self.lent.fill(STALE);
        let done = self.subject.call(request.bytes(), &mut self.lent);
        let (reply, tail) = self.lent.split_at(REPLY_BYTES);
        if done != 0 {
            return Err(format!("dimecandle_call returned {done} and not 0"));
        }
        if tail.iter().any(|&byte| byte != STALE) {
            return Err("bytes after the reply were written".to_string());
        }
        self.replies[2].bytes_mut().copy_from_slice(reply);
        Ok(())
    }

    fn count(&mut self, number: u64) {
        if let Some(count) = self.numbers.get_mut(number as usize) {
            *count += 1;
        }
    }

    // ** Unplug

    /// Compares one answer of `dimecandle_unplug`; where that is said, the subject's own `simple` is asked beside it. The verdict of all
    /// sides.
    pub fn unplug(&mut self, state: &State, id: u64, beside_simple: bool) -> Result<Verdict, Box<Failure>> {
        self.inputs += 1;
        match self.unplugged(state, id, beside_simple) {
            Err(difference) => Err(Box::new(Failure { input: Input::Unplug(Box::new(*state), id), difference })),
            Ok(verdict) => {
                self.count(verdict[0]);
                self.accepted += u64::from(verdict[0] == 0);
                Ok(verdict)
            }
        }
    }

    /// The verdict of all sides, or how one differs.
    pub fn unplugged(&mut self, state: &State, id: u64, beside_simple: bool) -> Result<Verdict, Difference> {
        let right = self.right_verdict(state, id);
        match self.each_side(|this| this.verdict_difference(state, id, &right, beside_simple)) {
            None => Ok(right.paper),
            Some(difference) => Err(difference),
        }
    }

    /// Asks the subject, and holds its verdict against the right one.
    pub fn verdict_difference(&mut self, state: &State, id: u64, right: &Right, beside_simple: bool) -> Option<Difference> {
        let verdict = match self.ask_unplug(state, id) {
            Ok(verdict) => verdict,
            Err(what) => return Some(from_the_paper(what)),
        };
        let beside = |this: &mut Self| this.hold_beside_simple(state, id, verdict).err().map(from_the_paper);
        right.difference(state, verdict).or_else(|| if beside_simple { beside(self) } else { None })
    }

    /// The subject's verdict. The words after it, which are lent every second time, stay as they are, and so does the state.
    fn ask_unplug(&self, state: &State, id: u64) -> Result<Verdict, String> {
        const STALE: u64 = 0xa5a5_a5a5_a5a5_a5a5;
        const AFTER: usize = 3;
        let mut words = [STALE; VERDICT_WORDS + AFTER];
        let lent = VERDICT_WORDS + self.inputs as usize % 2 * AFTER;
        // black_box: else the compiler takes it for granted that a lent state is not written
        let given = black_box(*state);
        let done = self.subject.unplug(given.words(), id, &mut words[..lent]);
        let (verdict, after) = words.split_first_chunk().expect("a verdict has fewer words");
        if done != 0 {
            return Err(format!("dimecandle_unplug returned {done} and not 0"));
        }
        if after.iter().any(|&word| word != STALE) {
            return Err("words after the verdict were written".to_string());
        }
        if given != *state {
            return Err("the state was written".to_string());
        }
        Ok(*verdict)
    }

    pub fn right_verdict(&mut self, state: &State, id: u64) -> Right {
        let paper = paper_unplug(&Model::PAPER, state, id);
        let rust = in_domain(state, paper[0]).then(|| self.rust.unplug(state, id));
        self.with_rust += u64::from(rust.is_some());
        self.other_fault += u64::from(rust.is_some_and(|rust| rust != paper));
        Right { paper, rust }
    }

    /// "the number and id returned equal those of `simple` with that single removal": here of the subject's own.
    fn hold_beside_simple(&mut self, state: &State, id: u64, verdict: Verdict) -> Result<(), String> {
        self.ask(&removal(state, id))?;
        let simple = self.answer().verdict();
        if verdict != simple {
            return Err(format!("beside dimecandle_call's simple, {}", show::verdicts(verdict, simple)));
        }
        Ok(())
    }

    // ** Scripts

    /// Compares one script: with an output of the listing's length, with a longer one, and with one that is a byte short.
    pub fn script(&mut self, script: &[u8]) -> Compared {
        self.script_with(script, &Room::ALL)
    }

    pub fn script_with(&mut self, script: &[u8], rooms: &[Room]) -> Compared {
        self.inputs += 1;
        match self.script_difference(script, rooms) {
            None => Ok(()),
            Some(difference) => Err(Box::new(Failure { input: Input::Script(script.to_vec()), difference })),
        }
    }

    pub fn script_difference(&mut self, script: &[u8], rooms: &[Room]) -> Option<Difference> {
        if script.len() > LONGEST_SCRIPT {
            self.count(19);
            let untouched =
                |this: &mut Self| [0, 1, 100_000].into_iter().find_map(|room| this.replay(script, room, Err(TOO_LONG)));
            return self.each_side(|this| untouched(this).map(from_the_paper));
        }
        let paper = Model::PAPER.listing(script);
        let rust = oracle::AT_HAND.then(|| rust_listing(script));
        self.with_rust += u64::from(rust.is_some());
        self.count_rooms(rooms, &paper);
        self.each_side(|this| this.listing_difference(script, rooms, rust.as_deref(), &paper))
    }

    /// Asks the subject for a listing, in each room, and holds it against the Rust's, where there is one, and the paper's.
    fn listing_difference(&self, script: &[u8], rooms: &[Room], rust: Option<&[u8]>, paper: &[u8]) -> Option<Difference> {
        let differs = |text: &[u8]| rooms.iter().find_map(|room| self.replay_in(script, *room, text));
        let Some(rust) = rust else { return differs(paper).map(from_the_paper) };
        let from_rust = differs(rust);
        let from_paper = if rust == paper { None } else { differs(paper) };
        match (from_rust, from_paper) {
            (Some(mut what), from_paper) => {
                if rust != paper && from_paper.is_none() {
                    what.push_str(AS_THE_PAPER);
                }
                Some(Difference { against: Against::Rust, what })
            }
            (None, from_paper) => from_paper.map(from_the_paper),
        }
    }

    /// 20 comes of a room that is a byte short.
    fn count_rooms(&mut self, rooms: &[Room], paper: &[u8]) {
        if !paper.is_empty() && rooms.iter().any(|room| matches!(room, Room::OneShort)) {
            self.count(20);
        }
    }

    fn replay_in(&self, script: &[u8], room: Room, text: &[u8]) -> Option<String> {
        match room {
            Room::Exact => self.replay(script, text.len(), Ok(text)),
            Room::Longer => self.replay(script, text.len() + TAIL, Ok(text)),
            Room::OneShort if text.is_empty() => None,
            Room::OneShort => self.replay(script, text.len() - 1, Err(NO_ROOM)),
        }
    }

    /// The subject's listing, in an output of ample length, beside the right one.
    fn listing_beside(&self, script: &[u8], text: &[u8]) -> String {
        let mut out = vec![0; AMPLE];
        match self.subject.replay(script, &mut out) as usize {
            length if length <= AMPLE => format!("\n{}", show::listings(&out[..length], text)),
            _ => String::new(),
        }
    }

    /// Runs the subject on an output of this length, filled before. "the bytes after it kept"; with 19 and 20 every byte is.
    fn replay(&self, script: &[u8], room: usize, expected: Result<&[u8], u64>) -> Option<String> {
        let before: Vec<u8> = (0..room).map(|place| (place as u8).wrapping_mul(31) | 128).collect();
        let mut out = before.clone();
        let returned = self.subject.replay(script, &mut out);
        let (value, text) = match expected {
            Ok(text) => (text.len() as u64, text),
            Err(number) => (number, &[][..]),
        };
        if returned != value {
            let found = expected.map_or_else(|_| String::new(), |text| self.listing_beside(script, text));
            return Some(format!("with {room} bytes of output it returned {returned} and not {value}{found}"));
        }
        if out[..text.len()] != *text {
            return Some(show::listings(&out[..text.len()], text));
        }
        (out[text.len()..] != before[text.len()..]).then(|| "bytes after the listing were written".to_string())
    }
}

/// The paper's verdict on one box, and the Rust's where it has one.
pub struct Right {
    paper: Verdict,
    rust: Option<Verdict>,
}

impl Right {
    /// How another verdict on the state differs.
    pub fn difference(&self, state: &State, verdict: Verdict) -> Option<Difference> {
        if let Some(rust) = self.rust.filter(|&rust| verdict != rust && !same_group(state, false, verdict, rust)) {
            let as_the_paper = if verdict == self.paper { AS_THE_PAPER } else { "" };
            let what = format!("{}{as_the_paper}", show::verdicts(verdict, rust));
            return Some(Difference { against: Against::Rust, what });
        }
        (verdict != self.paper).then(|| from_the_paper(show::verdicts(verdict, self.paper)))
    }
}

/// Longer than any listing.
const AMPLE: usize = 16 << 20;

/// How much output is lent for a listing.
#[derive(Clone, Copy)]
pub enum Room {
    Exact,
    Longer,
    OneShort,
}

impl Room {
    pub const ALL: [Room; 3] = [Room::Exact, Room::Longer, Room::OneShort];
}

/// Equal word by word, or both refused for faults of the same group.
pub fn agrees(request: &Request, subject: &Reply, rust: &Reply) -> bool {
    let (one, other) = (subject.verdict(), rust.verdict());
    let rest_equal = subject.words()[VERDICT_WORDS..] == rust.words()[VERDICT_WORDS..];
    rest_equal && (one == other || same_group(&request.state, request.call == LEAVE_JOINT, one, other))
}

fn from_the_paper(what: String) -> Difference {
    Difference { against: Against::Paper, what }
}
