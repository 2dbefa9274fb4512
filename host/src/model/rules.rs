//! The check, the table and the calls: document 01, "Refusal numbers" and "What one change does to one id".

use super::values::{fresh_record, Conf, ConfState, Entry, Refusal, Set, State};
use super::{Model, Wrong};
use crate::words::{self, CAPACITY};
use std::collections::BTreeMap;

/// The names are the paper's.
#[allow(clippy::enum_variant_names)]
#[derive(Clone, Copy, PartialEq, Eq)]
pub enum Kind {
    AddNode,
    RemoveNode,
    AddLearnerNode,
}

impl Kind {
    /// "0 AddNode, 1 RemoveNode, 2 AddLearnerNode"; a higher one was refused before.
    pub fn of(number: u64) -> Kind {
        match number {
            words::ADD_NODE => Kind::AddNode,
            words::REMOVE_NODE => Kind::RemoveNode,
            _ => Kind::AddLearnerNode,
        }
    }
}

#[derive(Clone, Copy)]
pub struct Change {
    pub id: u64,
    pub kind: Kind,
}

/// What `simple`, `enter_joint` and `leave_joint` give.
pub struct Accepted {
    pub conf: Conf,
    pub log: Vec<Entry>,
    /// "the number of list entries that left their id's standing unchanged and logged nothing, id 0 included"; a leave has no list
    pub idle: usize,
}

pub type Answer = Result<Accepted, Refusal>;

fn refuse(when: bool, number: u64) -> Result<(), Refusal> {
    if when {
        Err(Refusal { number, id: 0 })
    } else {
        Ok(())
    }
}

// ** The table

/// "An id's standing: none (untracked), idle (tracked only), I, L, O, IO, OS for incoming, learner, outgoing, both voters, outgoing and
/// staged."
#[derive(Clone, Copy, PartialEq, Eq)]
enum Standing {
    None,
    Idle,
    I,
    L,
    O,
    IO,
    OS,
}

#[derive(Clone, Copy, PartialEq, Eq)]
enum Effect {
    Nothing,
    LogAdd,
    LogRemove,
}

use Effect::{LogAdd, LogRemove, Nothing};
use Standing::{Idle, I, IO, L, O, OS};

type Row = [(Standing, Effect); 3];

/// AddNode, AddLearnerNode, RemoveNode, as the paper's columns stand; a row for each standing in the order of `Standing`.
const TABLE: [Row; 7] = [
    [(I, LogAdd), (L, LogAdd), (Standing::None, Nothing)],
    [(I, Nothing), (L, Nothing), (Standing::None, LogRemove)],
    [(I, Nothing), (L, Nothing), (Standing::None, LogRemove)],
    [(I, Nothing), (L, Nothing), (Standing::None, LogRemove)],
    [(IO, Nothing), (OS, Nothing), (O, Nothing)],
    [(IO, Nothing), (OS, Nothing), (O, Nothing)],
    [(IO, Nothing), (OS, Nothing), (O, Nothing)],
];

fn cell(standing: Standing, kind: Kind) -> (Standing, Effect) {
    let column = match kind {
        Kind::AddNode => 0,
        Kind::AddLearnerNode => 1,
        Kind::RemoveNode => 2,
    };
    TABLE[standing as usize][column]
}

/// Only a wrong rule does this: an id's standing as it would be if no voter were outgoing.
fn without_outgoing(standing: Standing) -> Standing {
    match standing {
        O => Idle,
        IO => I,
        OS => L,
        other => other,
    }
}

/// The configuration and the log while a list is carried out.
struct Work<'a> {
    base: &'a BTreeMap<u64, words::Record>,
    conf: Conf,
    log: Vec<Entry>,
    /// how many ids are tracked at this moment
    tracked: usize,
    /// how many entries of the list did nothing so far
    idle: usize,
    /// how many entries of the list changed incoming; only a wrong rule asks
    moved: usize,
}

impl<'a> Work<'a> {
    fn new(state: &'a State, conf: Conf) -> Work<'a> {
        Work { base: &state.tracked, conf, log: vec![], tracked: state.tracked.len(), idle: 0, moved: 0 }
    }

    /// "Tracked is asked of the base ids with the pending log over them, the last entry for the id deciding."
    fn is_tracked(&self, id: u64) -> bool {
        for entry in self.log.iter().rev() {
            match *entry {
                Entry::Add(x) if x == id => return true,
                Entry::Remove(x) if x == id => return false,
                _ => {}
            }
        }
        self.base.contains_key(&id)
    }

    fn standing(&self, model: &Model, id: u64) -> Standing {
        let conf = &self.conf;
        let tracked = if model.has(Wrong::TrackedOfBaseOnly) { self.base.contains_key(&id) } else { self.is_tracked(id) };
        if !tracked {
            Standing::None
        } else if conf.staged.contains(&id) {
            OS
        } else if conf.outgoing.contains(&id) {
            if conf.incoming.contains(&id) {
                IO
            } else {
                O
            }
        } else if conf.incoming.contains(&id) {
            I
        } else if conf.learners.contains(&id) {
            L
        } else {
            Idle
        }
    }

    /// Puts an id where its new standing says; outgoing is never touched by a change.
    fn place(&mut self, model: &Model, id: u64, standing: Standing) {
        self.conf.incoming.remove(&id);
        self.conf.learners.remove(&id);
        self.conf.staged.remove(&id);
        match standing {
            I | IO => self.conf.incoming.insert(id),
            L => self.conf.learners.insert(id),
            OS if model.has(Wrong::DemotedAtOnce) => self.conf.learners.insert(id),
            OS => self.conf.staged.insert(id),
            Standing::None | Idle | O => false,
        };
    }

    fn log(&mut self, model: &Model, id: u64, effect: Effect) {
        match effect {
            Nothing => {}
            LogAdd if model.has(Wrong::CancelsInTheLog) && self.log.last() == Some(&Entry::Remove(id)) => {
                self.log.pop();
                self.tracked += 1;
            }
            LogAdd => {
                self.log.push(Entry::Add(id));
                self.tracked += 1;
            }
            LogRemove => {
                self.log.push(Entry::Remove(id));
                if !model.has(Wrong::FreedRoomNotUsed) {
                    self.tracked = self.tracked.saturating_sub(1);
                }
            }
        }
    }
}

impl Model {
    // ** The check

    /// The faults of the first group that has one, in the paper's order: "voters of incoming or outgoing ascending (7); learners
    /// ascending, for each one 8, 9, 10; staged ascending, for each one 11, 12; if not joint, 13, then 14."
    pub fn faults(&self, conf: &Conf, tracked: &dyn Fn(u64) -> bool) -> Vec<Refusal> {
        let groups = [self.voter_faults(conf, tracked), learner_faults(conf, tracked), self.staged_faults(conf, tracked)];
        for group in groups {
            if !group.is_empty() {
                return group;
            }
        }
        let (id, idle) = (0, !conf.joint());
        if idle && !conf.staged.is_empty() && !self.has(Wrong::TwelveAsTheTextSays) {
            return vec![Refusal { number: 13, id }];
        }
        if idle && conf.auto_leave {
            return vec![Refusal { number: 14, id }];
        }
        vec![]
    }

    fn voter_faults(&self, conf: &Conf, tracked: &dyn Fn(u64) -> bool) -> Vec<Refusal> {
        let either: Vec<u64> = if self.has(Wrong::VotersSetBySet) {
            conf.incoming.iter().chain(&conf.outgoing).copied().collect()
        } else {
            conf.incoming.union(&conf.outgoing).copied().collect()
        };
        either.into_iter().filter(|&id| !tracked(id)).map(|id| Refusal { number: 7, id }).collect()
    }

    fn staged_faults(&self, conf: &Conf, tracked: &dyn Fn(u64) -> bool) -> Vec<Refusal> {
        let fault = |&id: &u64| {
            if !tracked(id) {
                Some(Refusal { number: 11, id })
            } else if conf.outgoing.contains(&id) == self.has(Wrong::TwelveAsTheTextSays) {
                Some(Refusal { number: 12, id })
            } else if self.has(Wrong::TwoRolesFailTheCheck) && conf.incoming.contains(&id) {
                Some(Refusal { number: 10, id })
            } else {
                None
            }
        };
        conf.staged.iter().filter_map(fault).collect()
    }

    pub fn check(&self, conf: &Conf, tracked: &dyn Fn(u64) -> bool) -> Result<(), Refusal> {
        self.faults(conf, tracked).first().map_or(Ok(()), |fault| Err(*fault))
    }

    fn check_state(&self, state: &State) -> Result<(), Refusal> {
        self.check(&state.conf, &|id| state.tracked.contains_key(&id))
    }

    /// "then 4, 5 or 6; the check"
    fn admit(&self, state: &State, wrong_kind: bool, number: u64) -> Result<(), Refusal> {
        if self.has(Wrong::CheckBeforeJoint) {
            self.check_state(state)?;
        }
        refuse(wrong_kind, number)?;
        self.check_state(state)
    }

    /// `check` of a state that is well formed.
    pub fn checked(&self, state: &State) -> Result<(), Refusal> {
        self.check_state(state)
    }

    /// "In order (an added yes or no): well formed, passes the check below, no id 0 anywhere, and tracked ids exactly those in at least
    /// one of the four sets." Document 02, h): it "shall also ask that no staged id is an incoming voter".
    pub fn in_order(&self, state: &State) -> bool {
        let members = state.conf.members();
        let tracked: Set = state.tracked.keys().copied().collect();
        let none_zero = !members.contains(&0) && !tracked.contains(&0);
        self.check_state(state).is_ok() && none_zero && tracked == members && self.roles_apart(&state.conf)
    }

    /// "no staged id is an incoming voter"
    fn roles_apart(&self, conf: &Conf) -> bool {
        let voters = if self.has(Wrong::StagedOutOfOrder) { &conf.outgoing } else { &conf.incoming };
        let asked = if self.has(Wrong::LeastStagedAlone) { 1 } else { conf.staged.len() };
        self.has(Wrong::TwoRolesInOrder) || !conf.staged.iter().take(asked).any(|id| voters.contains(id))
    }

    // ** The changes

    fn change(&self, work: &mut Work, change: Change) -> Result<(), Refusal> {
        let Change { id, kind } = change;
        if id == 0 && !self.has(Wrong::ZeroIsABox) {
            work.idle += usize::from(!self.has(Wrong::ZeroIsNotCounted));
            return Ok(());
        }
        let before = work.standing(self, id);
        work.idle += usize::from(self.is_idle(before, kind));
        let (after, mut effect) = cell(before, kind);
        if effect == LogAdd && work.tracked >= CAPACITY {
            refuse(self.has(Wrong::SeventeenBeforeSixteen) && work.conf.incoming.is_empty(), 17)?;
            return Err(Refusal { number: 16, id });
        }
        if self.has(Wrong::RemoveFreesOutgoing) && kind == Kind::RemoveNode && matches!(before, O | IO | OS) {
            effect = LogRemove;
        }
        let voted = work.conf.incoming.contains(&id);
        work.place(self, id, after);
        work.log(self, id, effect);
        work.moved += usize::from(voted != work.conf.incoming.contains(&id));
        Ok(())
    }

    /// Document 02, b): "left their id's standing unchanged and logged nothing", "read off document 01's table, taken from each entry's
    /// standing at its turn".
    fn is_idle(&self, before: Standing, kind: Kind) -> bool {
        let before = if self.has(Wrong::IdleWithoutOutgoing) { without_outgoing(before) } else { before };
        let (after, effect) = cell(before, kind);
        if self.has(Wrong::IdleBySets) {
            return after == before || (before, after) == (Idle, Standing::None);
        }
        if self.has(Wrong::IdleByLog) {
            return effect == Nothing;
        }
        after == before && effect == Nothing && !(before == OS && self.has(Wrong::StagedAgainIsAChange))
    }

    /// Only a wrong rule does this: the standings are those before the list.
    fn idle_at_the_start(&self, start: &Work, list: &[Change]) -> usize {
        list.iter().filter(|change| change.id == 0 || self.is_idle(start.standing(self, change.id), change.kind)).count()
    }

    /// "the changes, stopping at the first 16; 17"
    fn changes<'a>(&self, state: &'a State, conf: Conf, list: &[Change]) -> Result<Work<'a>, Refusal> {
        let mut work = Work::new(state, conf);
        let at_the_start = self.has(Wrong::IdleAtTheStart).then(|| self.idle_at_the_start(&work, list));
        for &change in list {
            self.change(&mut work, change)?;
        }
        work.idle = at_the_start.unwrap_or(work.idle);
        let tested = !(self.has(Wrong::EmptyListAccepted) && list.is_empty());
        refuse(tested && work.conf.incoming.is_empty(), 17)?;
        Ok(work)
    }

    /// "the check again", over the pending log.
    fn finish(&self, work: Work) -> Answer {
        self.check(&work.conf, &|id| work.is_tracked(id))?;
        Ok(Accepted { conf: work.conf, log: work.log, idle: work.idle })
    }

    // ** The three calls

    /// "`simple`: the list, then the net difference of incoming before and after."
    pub fn simple(&self, state: &State, list: &[Change]) -> Answer {
        self.admit(state, state.conf.joint(), 6)?;
        let work = self.changes(state, state.conf.clone(), list)?;
        let difference = if self.has(Wrong::CountsChanges) {
            work.moved
        } else {
            work.conf.incoming.symmetric_difference(&state.conf.incoming).count()
        };
        let most = if self.has(Wrong::TwoVotersChange) { 2 } else { 1 };
        refuse(difference > most, 18)?;
        self.finish(work)
    }

    /// "`enter_joint`: outgoing becomes a copy of incoming, then the list, then `auto_leave` as asked."
    pub fn enter_joint(&self, state: &State, auto_leave: bool, list: &[Change]) -> Answer {
        self.admit(state, state.conf.joint(), 4)?;
        refuse(state.conf.incoming.is_empty(), 15)?;
        let mut conf = state.conf.clone();
        if !self.has(Wrong::OldVotersNotKept) {
            conf.outgoing = conf.incoming.clone();
        }
        let mut work = self.changes(state, conf, list)?;
        work.conf.auto_leave = auto_leave;
        self.finish(work)
    }

    /// "`leave_joint`: staged ids join learners; each outgoing id now neither incoming nor learner is logged Remove, ascending; outgoing
    /// empties; `auto_leave` is false."
    pub fn leave_joint(&self, state: &State) -> Answer {
        self.admit(state, !state.conf.joint(), 5)?;
        let mut work = Work::new(state, self.left(&state.conf));
        for id in self.gone(&state.conf) {
            work.log.push(Entry::Remove(id));
        }
        self.finish(work)
    }

    /// The configuration after leaving.
    fn left(&self, conf: &Conf) -> Conf {
        Conf {
            incoming: conf.incoming.clone(),
            outgoing: Set::new(),
            learners: conf.learners.union(&conf.staged).copied().collect(),
            staged: Set::new(),
            auto_leave: conf.auto_leave && self.has(Wrong::LeaveKeepsTheFlag),
        }
    }

    fn gone(&self, conf: &Conf) -> Vec<u64> {
        let left = self.left(conf);
        let learners = if self.has(Wrong::LeaveRemovesStaged) { &conf.learners } else { &left.learners };
        conf.outgoing.iter().filter(|id| !conf.incoming.contains(id) && !learners.contains(id)).copied().collect()
    }

    /// Every fault that the Rust may name in the place of the paper's, where it walks a hash set: those of the first failing group, of the
    /// check before the call or, of a leave, of the one after it.
    pub fn first_group(&self, state: &State, leaving: bool) -> Vec<Refusal> {
        let before = self.faults(&state.conf, &|id| state.tracked.contains_key(&id));
        if !before.is_empty() || !leaving {
            return before;
        }
        let gone = self.gone(&state.conf);
        self.faults(&self.left(&state.conf), &|id| state.tracked.contains_key(&id) && !gone.contains(&id))
    }

    // ** unplug

    /// Document 02, d): "Answer from the box's own standing, joint or not, and whether another incoming voter exists"; "For every state in
    /// order and every id the number and id returned equal those of `simple` with that single removal. Any other state gets the full
    /// call's answer."
    pub fn can_unplug(&self, state: &State, id: u64) -> Result<(), Refusal> {
        if !self.in_order(state) && !self.has(Wrong::UnplugWithoutTheCheck) {
            let model = if self.has(Wrong::UnplugZeroIsABox) { Model::with(Wrong::ZeroIsABox) } else { *self };
            return model.simple(state, &[Change { id, kind: Kind::RemoveNode }]).map(|_| ());
        }
        refuse(state.conf.joint() && !self.has(Wrong::UnplugWhileJoint), 6)?;
        refuse(!self.another_voter(&state.conf, id), 17)
    }

    /// "whether another incoming voter exists"
    fn another_voter(&self, conf: &Conf, id: u64) -> bool {
        let another = |set: &Set| set.iter().any(|&other| other != id);
        if self.has(Wrong::UnplugOneVoterIsTheLast) {
            return conf.incoming.len() > 1;
        }
        another(&conf.incoming)
            || (self.has(Wrong::UnplugCountsLearners) && another(&conf.learners))
            || (self.has(Wrong::UnplugOfNoVoter) && !conf.incoming.contains(&id))
    }

    // ** apply_conf, restore_step_by_step, restore

    /// "`apply_conf`: sets the configuration, then takes log entries in order. Add writes a fresh record over any old one; Remove of an
    /// absent id does nothing. No check is made. It gives .. 16 if an Add would need a 65th tracked id, and then nothing has changed."
    pub fn apply_conf(&self, state: &mut State, conf: Conf, log: &[Entry], next_idx: u64) -> Result<(), Refusal> {
        let fresh = fresh_record(next_idx, state.max_inflight);
        let mut tracked = state.tracked.clone();
        for entry in log {
            match *entry {
                Entry::Add(id) => {
                    if !tracked.contains_key(&id) && tracked.len() >= CAPACITY {
                        if self.has(Wrong::RefusedApplySetsConf) {
                            state.conf = conf;
                        }
                        return Err(Refusal { number: 16, id });
                    }
                    if !(self.has(Wrong::AddKeepsTheOldRecord) && tracked.contains_key(&id)) {
                        tracked.insert(id, fresh);
                    }
                }
                Entry::Remove(id) => {
                    tracked.remove(&id);
                }
            }
        }
        (state.conf, state.tracked) = (conf, tracked);
        Ok(())
    }

    /// One step of a restore, applied.
    fn step(&self, state: &mut State, next_idx: u64, answer: Answer) -> Result<(), Refusal> {
        let Accepted { conf, log, .. } = answer?;
        self.apply_conf(state, conf, &log, next_idx)
    }

    fn simple_step(&self, state: &mut State, next_idx: u64, kind: Kind, id: u64) -> Result<(), Refusal> {
        let answer = self.simple(state, &[Change { id, kind }]);
        self.step(state, next_idx, answer)
    }

    /// "A refused step ends it; earlier steps stay and its number and id are returned." Document 02, g): it "stays as document 01 has it".
    pub fn restore_step_by_step(&self, state: &mut State, next_idx: u64, lists: &ConfState) -> Result<(), Refusal> {
        let given = self.has(Wrong::RefusedStepsUndone).then(|| state.clone());
        let result = if self.has(Wrong::RestoreListsAsSets) {
            self.restore_steps(state, next_idx, &as_sets(lists))
        } else {
            self.restore_steps(state, next_idx, lists)
        };
        if let (Err(_), Some(given)) = (&result, given) {
            *state = given;
        }
        result
    }

    /// "No outgoing: each voter, learner and staged id in list order as a `simple` of its own (AddNode for voters, AddLearnerNode for the
    /// others); the flag is ignored. Otherwise one `simple` AddNode per outgoing id, then one `enter_joint` with: remove each outgoing,
    /// add each voter, add-learner each learner, then each staged."
    fn restore_steps(&self, state: &mut State, next_idx: u64, lists: &ConfState) -> Result<(), Refusal> {
        let mut wanted = vec![];
        wanted.extend(changes_of(Kind::AddNode, &lists.voters));
        wanted.extend(changes_of(Kind::AddLearnerNode, &lists.learners));
        wanted.extend(changes_of(Kind::AddLearnerNode, &lists.learners_next));
        if lists.voters_outgoing.is_empty() {
            for change in wanted {
                self.simple_step(state, next_idx, change.kind, change.id)?;
            }
            if self.has(Wrong::RestoreFlagNotIgnored) {
                state.conf.auto_leave = lists.auto_leave;
            }
            return Ok(());
        }
        for &id in &lists.voters_outgoing {
            self.simple_step(state, next_idx, Kind::AddNode, id)?;
        }
        let mut list: Vec<Change> = changes_of(Kind::RemoveNode, &lists.voters_outgoing).collect();
        list.extend(wanted);
        let answer = self.enter_joint(state, lists.auto_leave, &list);
        self.step(state, next_idx, answer)
    }

    /// Document 02, g): "a refused `restore` .. returns the state it was given, with the same number and id."
    pub fn restore(&self, state: &mut State, next_idx: u64, lists: &ConfState) -> Result<(), Refusal> {
        let mut tried = state.clone();
        match self.restore_step_by_step(&mut tried, next_idx, lists) {
            Ok(()) => {
                *state = tried;
                Ok(())
            }
            Err(refusal) => Err(self.refused_restore(state, tried, refusal)),
        }
    }

    /// The refusal, and the state given as it is: only wrong rules do something here.
    fn refused_restore(&self, given: &mut State, tried: State, refusal: Refusal) -> Refusal {
        if self.has(Wrong::RefusedRestoreKeepsSteps) {
            *given = tried;
        } else if self.has(Wrong::RefusedRestoreIsFresh) {
            *given = State::fresh(given.max_inflight);
        } else if self.has(Wrong::RefusedRestoreKeepsTracked) {
            given.tracked = tried.tracked;
        }
        let id = if self.has(Wrong::RefusedRestoreDropsTheId) { 0 } else { refusal.id };
        Refusal { id, ..refusal }
    }

    /// "`to_conf_state`: four ascending lists"
    pub fn to_conf_state(self, conf: &Conf) -> ConfState {
        let list = |set: &Set| set.iter().copied().collect();
        ConfState {
            voters: list(&conf.incoming),
            learners: list(&conf.learners),
            voters_outgoing: list(&conf.outgoing),
            learners_next: list(&conf.staged),
            auto_leave: conf.auto_leave,
        }
    }
}

fn learner_faults(conf: &Conf, tracked: &dyn Fn(u64) -> bool) -> Vec<Refusal> {
    let fault = |&id: &u64| {
        if !tracked(id) {
            Some(Refusal { number: 8, id })
        } else if conf.outgoing.contains(&id) {
            Some(Refusal { number: 9, id })
        } else if conf.incoming.contains(&id) {
            Some(Refusal { number: 10, id })
        } else {
            None
        }
    };
    conf.learners.iter().filter_map(fault).collect()
}

fn changes_of(kind: Kind, ids: &[u64]) -> impl Iterator<Item = Change> + '_ {
    ids.iter().map(move |&id| Change { id, kind })
}

/// Only a wrong rule does this.
fn as_sets(lists: &ConfState) -> ConfState {
    let set = |list: &[u64]| list.iter().copied().collect::<Set>().into_iter().collect();
    ConfState {
        voters: set(&lists.voters),
        learners: set(&lists.learners),
        voters_outgoing: set(&lists.voters_outgoing),
        learners_next: set(&lists.learners_next),
        auto_leave: lists.auto_leave,
    }
}
