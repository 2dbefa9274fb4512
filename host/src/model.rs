//! A model of the paper: document 01 in plain Rust, written from its sentences and not from the Rust text. What it answers to a message is
//! in message.rs, and to two of them in lines.rs.
//!
//! It has three uses. It says what is right where the Rust has no answer (refusals 1, 2, 3, 16, 19, 20, and which of several faults
//! is named). It stands in the place of a static library that is not there. And it carries rules that are wrong on purpose
//! (model/wrong.rs), which the comparison has to catch.

mod entries;
mod rules;
mod values;
mod wrong;

pub use rules::{Accepted, Answer, Change, Kind};
pub use values::{read_log, write_log, Conf, ConfState, Entry, Refusal, Set, State};
pub use wrong::Wrong;

use crate::script::{Line, Machine, Run};

/// The paper's rules, or all of them but one.
#[derive(Clone, Copy)]
pub struct Model {
    wrong: Option<Wrong>,
}

impl Model {
    pub const PAPER: Model = Model { wrong: None };

    pub fn with(wrong: Wrong) -> Model {
        Model { wrong: Some(wrong) }
    }

    pub fn has(&self, rule: Wrong) -> bool {
        self.wrong == Some(rule)
    }
}

/// A script's machine: "beginning from the fresh state with `max_inflight` 256".
pub struct Replayed {
    model: Model,
    state: State,
}

impl Replayed {
    pub fn new(model: Model) -> Replayed {
        Replayed { model, state: State::fresh(256) }
    }
}

impl Machine for Replayed {
    /// "an accepted answer is applied"
    fn run(&mut self, run: Run, list: &[(u64, u64)], next_idx: u64) -> Line {
        let list: Vec<Change> = list.iter().map(|&(id, kind)| Change { id, kind: Kind::of(kind) }).collect();
        let answer = match run {
            Run::Simple => self.model.simple(&self.state, &list),
            Run::Enter { auto_leave } => self.model.enter_joint(&self.state, auto_leave, &list),
            Run::Leave => self.model.leave_joint(&self.state),
        };
        match answer {
            Err(refusal) => Line::Refused { number: refusal.number, id: refusal.id },
            Ok(Accepted { conf, log, .. }) => {
                let line = Line::of(&conf, &log);
                let _ = self.model.apply_conf(&mut self.state, conf, &log, next_idx);
                line
            }
        }
    }
}
