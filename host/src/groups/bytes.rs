//! The entry `dimecandle_call` itself: docs/EMBEDDING.md, "What the function returns". "With 1 to 4 the reply's bytes are as they were.
//! The lowest number that applies is given."

use super::Size;
use crate::calls::CALLS;
use crate::compare::{Against, Compared, Comparison, Difference, Failure, Input};
use crate::generate;
use crate::random::Random;
use crate::subject::Subject;
use crate::words::{Block, Request, CAPACITY, LIST_PLACES, LOG_PLACES, REPLY_BYTES, REQUEST_BYTES, STATE_WORDS};
use std::mem::offset_of;

pub fn bytes(comparison: &mut Comparison, random: &mut Random, size: Size) -> Compared {
    lengths(comparison)?;
    unknown_calls(comparison)?;
    unholdable_words(comparison, random, size)?;
    unused_places(comparison, random, size)
}

/// A request of another length is 1, whatever the reply; a reply that is too short 2. A longer reply keeps its bytes.
fn lengths(comparison: &mut Comparison) -> Compared {
    let request = Request::new(0);
    let longer = [request.bytes(), &[0; 8]].concat();
    for request_len in [0, 8, REQUEST_BYTES - 8, REQUEST_BYTES - 1, REQUEST_BYTES + 1, REQUEST_BYTES + 8] {
        for reply_len in [0, 1, REPLY_BYTES - 1, REPLY_BYTES, REPLY_BYTES + 1] {
            returns(comparison, 1, &longer[..request_len], reply_len)?;
        }
    }
    for reply_len in [0, 1, 8, REPLY_BYTES - 8, REPLY_BYTES - 1] {
        returns(comparison, 2, request.bytes(), reply_len)?;
        returns(comparison, 2, Request::new(99).bytes(), reply_len)?;
    }
    for reply_len in [REPLY_BYTES, REPLY_BYTES + 1, REPLY_BYTES + 1_000] {
        returns(comparison, 0, request.bytes(), reply_len)?;
    }
    Ok(())
}

/// 3, also where a word is one that no field can hold.
fn unknown_calls(comparison: &mut Comparison) -> Compared {
    for call in [CALLS.len() as u64, 255, 256, 1 << 32, u64::MAX] {
        let mut request = Request::new(call);
        returns(comparison, 3, request.bytes(), REPLY_BYTES)?;
        request.auto_leave = 2;
        returns(comparison, 3, request.bytes(), REPLY_BYTES)?;
    }
    Ok(())
}

/// Each place that holds a flag, a state, a kind or a list's count: the largest number that it can hold is taken, the next is 4, in every
/// call.
fn unholdable_words(comparison: &mut Comparison, random: &mut Random, size: Size) -> Compared {
    let state = generate::in_order(random, &[1, 2, 3]);
    for call in &CALLS {
        for (word, largest) in narrow_words() {
            let mut request = Request::new(call.number);
            request.state = state;
            request.words_mut()[word] = largest;
            returns(comparison, 0, request.bytes(), REPLY_BYTES)?;
            comparison.call(&request)?;
            let beyond = [largest + 1, largest + 256, u64::MAX];
            for &value in &beyond[..size.pick(1, 3, 3)] {
                request.words_mut()[word] = value;
                returns(comparison, 4, request.bytes(), REPLY_BYTES)?;
            }
        }
    }
    Ok(())
}

/// The words that cannot hold every number, each with the largest that it can.
fn narrow_words() -> Vec<(usize, u64)> {
    let word = |bytes: usize| bytes / 8;
    let state = offset_of!(Request, state);
    let mut words = vec![
        (word(state + offset_of!(crate::words::State, conf.auto_leave)), 1),
        (word(offset_of!(Request, auto_leave)), 1),
        (word(offset_of!(Request, list.ids_count)), LIST_PLACES as u64),
        (word(offset_of!(Request, list.kinds_count)), LIST_PLACES as u64),
        (word(offset_of!(Request, conf.auto_leave)), 1),
        (word(offset_of!(Request, conf_state.auto_leave)), 1),
    ];
    for place in 0..CAPACITY {
        let record = word(offset_of!(Request, state.records)) + 10 * place;
        words.extend([(record + 2, 2), (record + 3, 1), (record + 6, 1)]);
    }
    words.extend((0..LIST_PLACES).map(|place| (word(offset_of!(Request, list.kinds)) + place, 255)));
    words.extend((0..LOG_PLACES).map(|place| (word(offset_of!(Request, log.entries)) + 2 * place + 1, 1)));
    words
}

/// Those of a state, by their places in it.
pub fn narrow_words_of_state() -> Vec<(usize, u64)> {
    let first = offset_of!(Request, state) / 8;
    let of_state = |(word, _): &(usize, u64)| (first..first + STATE_WORDS).contains(word);
    narrow_words().into_iter().filter(of_state).map(|(word, largest)| (word - first, largest)).collect()
}

/// Every other word is any number, in every call: random words everywhere but in the narrow ones.
fn unused_places(comparison: &mut Comparison, random: &mut Random, size: Size) -> Compared {
    let narrow = narrow_words();
    for _ in 0..size.pick(100, 3_000, 60_000) {
        let mut request = Request::new(0);
        request.words_mut().iter_mut().for_each(|word| *word = random.next());
        for &(word, largest) in &narrow {
            request.words_mut()[word] = random.next() % (largest + 1);
        }
        if random.one_in(2) {
            request.state = generate::in_order(random, &[1, 2, 3]);
        }
        request.call = random.below(CALLS.len()) as u64;
        comparison.call(&request)?;
    }
    Ok(())
}

fn returns(comparison: &mut Comparison, expected: u64, request: &[u8], reply_len: usize) -> Compared {
    let lent: Vec<u8> = (0..reply_len).map(|place| (place as u8).wrapping_mul(29) | 1).collect();
    let returned = Returned { expected, given: request, lent: &lent, answer: REPLY_BYTES };
    let input = || format!("a request of {} bytes, a reply of {reply_len}", request.len());
    returned.compared(comparison, |subject, request, reply| subject.call(request, reply), input)
}

/// What an entry has to return, and the bytes or words that it is given and lent; its answer is so many of these.
pub struct Returned<'a, T> {
    pub expected: u64,
    pub given: &'a [T],
    pub lent: &'a [T],
    pub answer: usize,
}

impl<T: Copy + PartialEq> Returned<'_, T> {
    /// Runs the entry of each side.
    pub fn compared(
        self,
        comparison: &mut Comparison,
        entry: impl Fn(&dyn Subject, &[T], &mut [T]) -> u64,
        input: impl FnOnce() -> String,
    ) -> Compared {
        comparison.inputs += 1;
        let differs = |comparison: &mut Comparison| self.difference(|given, lent| entry(comparison.subject, given, lent));
        match comparison.each_side(differs) {
            None => Ok(()),
            Some(difference) => Err(Box::new(Failure { input: Input::Other(input()), difference })),
        }
    }

    /// Looks at the value and at what was lent: what was given stays, and of the lent with a refusal all, with 0 what is after the answer.
    fn difference(&self, entry: impl FnOnce(&[T], &mut [T]) -> u64) -> Option<Difference> {
        let (given, mut lent) = (self.given.to_vec(), self.lent.to_vec());
        let returned = entry(&given, &mut lent);
        let kept = if self.expected == 0 { self.answer } else { 0 };
        let what = if returned != self.expected {
            format!("it returned {returned} and not {}", self.expected)
        } else if given != self.given {
            "what was given was written".to_string()
        } else if lent[kept..] != self.lent[kept..] {
            "what was lent was written".to_string()
        } else {
            return None;
        };
        Some(Difference { against: Against::Paper, what })
    }
}
