//! Two messages through the subject and lines.rs. The Rust has no answer here.

use super::messages::BEHIND;
use super::{from_the_paper, Compared, Comparison, Difference, Failure, Input, TAIL};
use crate::lines::{compared, mirrored, read_back, Said, LONGEST_LINES, NO_ROOM_FOR_LINES};
use crate::message::REFUSED;
use crate::model::Model;
use crate::show;
use std::hint::black_box;

/// The lines of two messages, or the number that refuses them.
pub type Lines = Result<String, u64>;

/// The right ones.
pub fn right_lines(first: &[u8], second: &[u8]) -> Lines {
    compared(&Model::PAPER, first, second)
}

/// What is enough for any lines, and a byte less: lent with one input in so many, since filling it takes longer than the lines.
const ENOUGH: [usize; 2] = [LONGEST_LINES, LONGEST_LINES - 1];
const ENOUGH_IN: u64 = 8;

/// What is lent where the messages are refused, whatever it is.
const ROOMS_FOR_NOTHING: [usize; 3] = [0, 1, 400];

impl Comparison<'_> {
    /// Compares what is said of two messages: in a buffer of the lines' length, a longer one, one that is a byte short and none; at
    /// times also in one that is enough for any lines.
    /// What was said is read back, and held against what is said the other way round.
    pub fn pair(&mut self, first: &[u8], second: &[u8]) -> Compared {
        self.inputs += 1;
        let right = right_lines(first, second);
        match &right {
            Ok(lines) => {
                self.count(0);
                self.accepted += 1;
                self.lines += lines.matches('\n').count() as u64;
            }
            Err(number) => self.count(*number),
        }
        match self.each_side(|this| this.lines_difference(first, second, &right)) {
            None => Ok(()),
            Some(difference) => Err(Box::new(Failure { input: Input::Pair(first.to_vec(), second.to_vec()), difference })),
        }
    }

    pub fn pair_difference(&mut self, first: &[u8], second: &[u8]) -> Option<Difference> {
        let right = right_lines(first, second);
        self.each_side(|this| this.lines_difference(first, second, &right))
    }

    /// Asks the subject, and holds what it said against what is right.
    pub fn lines_difference(&self, first: &[u8], second: &[u8], right: &Lines) -> Option<Difference> {
        let differs = match right {
            Err(number) => ROOMS_FOR_NOTHING.into_iter().find_map(|room| self.say_in(first, second, room, Err(REFUSED + number))),
            Ok(lines) => self.said_in_rooms(first, second, lines),
        };
        differs.map(from_the_paper)
    }

    fn said_in_rooms(&self, first: &[u8], second: &[u8], lines: &str) -> Option<String> {
        if lines.len() > LONGEST_LINES {
            return Some(format!("the lines have {} bytes, and none should be longer than {LONGEST_LINES}", lines.len()));
        }
        let enough = if self.inputs.is_multiple_of(ENOUGH_IN) { &ENOUGH[..] } else { &[] };
        let rooms = [lines.len(), lines.len() + TAIL].into_iter().chain(enough.iter().copied());
        let whole = rooms.filter(|&room| room >= lines.len()).map(|room| (room, Ok(lines)));
        let short = [lines.len().wrapping_sub(1), 0].map(|room| (room, Err(NO_ROOM_FOR_LINES)));
        let short = short.into_iter().filter(|_| !lines.is_empty());
        let differs = whole.chain(short).find_map(|(room, right)| self.say_in(first, second, room, right));
        differs.or_else(|| not_read_back(first, second, lines)).or_else(|| self.not_mirrored(first, second, lines))
    }

    /// Runs the subject on a buffer of this length, filled before. The bytes after the lines are kept, and with a refusal all.
    pub fn say_in(&self, first: &[u8], second: &[u8], room: usize, right: Result<&str, u64>) -> Option<String> {
        let before: Vec<u8> = (0..room).map(|place| (place as u8).wrapping_mul(31) | 128).collect();
        let mut out = before.clone();
        let given = black_box([first, second].map(|bytes| [bytes, &BEHIND].concat()));
        let returned = self.subject.compare(&given[0][..first.len()], &given[1][..second.len()], &mut out);
        let (value, lines) = match right {
            Ok(lines) => (lines.len() as u64, lines.as_bytes()),
            Err(refusal) => (refusal, &[][..]),
        };
        if returned != value {
            let (returned, value) = (show::written(returned), show::written(value));
            let beside = right.map_or_else(|_| String::new(), |lines| self.lines_beside(first, second, lines));
            return Some(format!("with {room} bytes it returned {returned} and not {value}{beside}"));
        }
        let (front, after) = out.split_at(lines.len());
        if front != lines {
            return Some(show::listings(front, lines));
        }
        if after != &before[lines.len()..] {
            return Some(format!("with {room} bytes it returned {}, and other bytes were written", show::written(returned)));
        }
        let kept = [first, second].iter().zip(&given).all(|(bytes, given)| **bytes == given[..bytes.len()]);
        (!kept).then(|| "a message was written".to_string())
    }

    /// The subject's lines, in a buffer of ample length, beside the right ones.
    fn lines_beside(&self, first: &[u8], second: &[u8], lines: &str) -> String {
        let mut out = vec![0; 2 * LONGEST_LINES];
        let returned = self.subject.compare(first, second, &mut out);
        let said = out.get(..returned as usize);
        said.map_or_else(String::new, |said| format!("\nin a longer buffer {}", show::listings(said, lines.as_bytes())))
    }

    /// The other way round the same lines are said with left and right exchanged.
    fn not_mirrored(&self, first: &[u8], second: &[u8], lines: &str) -> Option<String> {
        match mirrored(lines) {
            None => Some("a line has no left and right".to_string()),
            Some(lines) => {
                let differs = self.say_in(second, first, lines.len(), Ok(&lines));
                differs.map(|what| format!("the other way round, {what}"))
            }
        }
    }
}

/// "a reader of the lines with the first message can state the second's sets exactly"
fn not_read_back(first: &[u8], second: &[u8], lines: &str) -> Option<String> {
    match read_back(&Said::by(first), lines) {
        Err(why) => Some(format!("read back, {why}")),
        Ok(said) => {
            (said != Said::by(second)).then(|| "read back, the lines give other sets than the second message's".to_string())
        }
    }
}
