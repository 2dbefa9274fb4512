//! Which inputs of a group the emulated code is asked, beside the native code that is asked every one.

use crate::random::Random;
use crate::subject::Subject;

/// How much of a group it is asked.
#[derive(Clone, Copy, PartialEq, Eq)]
pub enum Share {
    All,
    /// the first input, and one of every twenty after the first twenty
    OneInTwenty,
}

const TWENTY: u64 = 20;

/// The subject that is asked some inputs too, and which. Inputs are counted from 1.
pub struct Beside<'a> {
    pub subject: &'a dyn Subject,
    /// how many of the group's inputs it has been asked
    pub asked: u64,
    last: u64,
    group: &'static str,
    share: Share,
}

impl<'a> Beside<'a> {
    pub fn new(subject: &'a dyn Subject) -> Beside<'a> {
        Beside { subject, asked: 0, last: 0, group: "", share: Share::All }
    }

    pub fn begin(&mut self, group: &'static str, share: Share) {
        (self.asked, self.last, self.group, self.share) = (0, 0, group, share);
    }

    /// Whether it is asked this input; then it counts, once.
    pub fn takes(&mut self, input: u64) -> bool {
        let takes = self.share == Share::All || input == chosen(self.group, input);
        if takes && self.last != input {
            (self.asked, self.last) = (self.asked + 1, input);
        }
        takes
    }
}

/// The one input that is taken of the twenty among which this one is. Of the first twenty it is the first, so
/// that no group goes without; of the others any, as a number drawn for the group and the twenty says: groups ask
/// calls in turn, and a fixed step would always meet the same call.
fn chosen(group: &str, input: u64) -> u64 {
    let twenty = (input - 1) / TWENTY;
    let place = if twenty == 0 { 0 } else { Random::new(twenty, group).below(TWENTY as usize) };
    twenty * TWENTY + 1 + place as u64
}
