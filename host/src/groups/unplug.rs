//! `dimecandle_unplug`: document 02, d). Every answer is that of `simple` with the single removal, by the Rust and by the model, and in the
//! small groups and in a share of the random ones also by the subject's own `simple`. And what the entry returns: docs/EMBEDDING.md.

use super::bytes::{narrow_words_of_state, Returned};
use super::states::{each_state, passes, read_in_order};
use super::Size;
use crate::compare::{Against, Compared, Comparison, Difference, Failure, Input};
use crate::generate::{self, MakeState};
use crate::random::Random;
use crate::words::{Block, Request, State, STATE_WORDS, VERDICT_WORDS};

// ** Small states

/// An id that no small state has.
const NOWHERE: u64 = 7;

pub fn two_ids(comparison: &mut Comparison, _: &mut Random, _: Size) -> Compared {
    small(comparison, &[0, 1], |_| true)?;
    small(comparison, &[1, 2], |_| true)
}

/// Where the check fails the id is not looked at: there two are asked about, others from state to state, but for a long run.
pub fn three_ids(comparison: &mut Comparison, _: &mut Random, size: Size) -> Compared {
    if size == Size::Quick {
        return Ok(());
    }
    small(comparison, &[1, 2, 3], |request| size == Size::Long || passes(request))
}

/// Every state over these ids, asked about 0, each of them and one that is nowhere: where `every` says so about all, else about two. How
/// often states in order give each number is counted.
fn small(comparison: &mut Comparison, ids: &[u64], every: impl Fn(&Request) -> bool) -> Compared {
    let mut asked = [ids, &[0, NOWHERE]].concat();
    asked.sort_unstable();
    asked.dedup();
    let mut met = [0; 3];
    each_state(ids, &mut Request::new(0), &mut |request| {
        let in_order = read_in_order(&request.state).is_some();
        let count = if every(request) { asked.len() } else { 2 };
        for &id in asked.iter().cycle().skip(comparison.inputs as usize % asked.len()).take(count) {
            let [number, _] = comparison.unplug(&request.state, id, true)?;
            if let Some(place) = NUMBERS.iter().position(|&given| in_order && given == number) {
                met[place] += 1;
            }
        }
        Ok(())
    })?;
    let expected = how_often(ids, asked.len() as u64);
    if met != expected {
        let what = format!("states in order gave {NUMBERS:?} so often: {met:?}, expected {expected:?}");
        let input = Input::Other(format!("every state over the ids {ids:?}, asked about {asked:?}"));
        return Err(Box::new(Failure { input, difference: Difference { against: Against::Paper, what } }));
    }
    Ok(())
}

/// What a state in order can give.
const NUMBERS: [u64; 3] = [0, 6, 17];

/// How often states in order over these ids, each asked about so many, give each of these numbers, worked by hand from the standings: a box,
/// an id other than 0, is none, I or L, in a joint state also O, IO or OS, and a joint state has either flag. 17 comes where every other
/// box is none or L, whatever the one asked about.
fn how_often(ids: &[u64], asked: u64) -> [u64; 3] {
    let boxes = ids.iter().filter(|&&id| id != 0).count() as u64;
    let of = |standings: u64| standings.pow(boxes as u32);
    let last = (asked - boxes) * of(2) + boxes * of(2) / 2 * 3;
    [asked * of(3) - last, asked * 2 * (of(6) - of(3)), last]
}

// ** Random states

pub fn in_order(comparison: &mut Comparison, random: &mut Random, size: Size) -> Compared {
    let makes = [generate::in_order as MakeState, generate::one_voter];
    many(comparison, random, size.pick(1_000, 40_000, 1_000_000), |random| some_state(random, &makes))
}

pub fn faulty(comparison: &mut Comparison, random: &mut Random, size: Size) -> Compared {
    let makes = [generate::two_roles as MakeState, generate::formed, generate::formed, generate::zero_votes];
    many(comparison, random, size.pick(1_000, 30_000, 800_000), |random| some_state(random, &makes))
}

pub fn malformed(comparison: &mut Comparison, random: &mut Random, size: Size) -> Compared {
    let makes = [generate::in_order as MakeState, generate::one_voter, generate::formed];
    many(comparison, random, size.pick(1_000, 20_000, 500_000), |random| {
        let mut state = some_state(random, &makes);
        generate::damage_state(random, &mut state);
        state
    })
}

fn some_state(random: &mut Random, makes: &[MakeState]) -> State {
    let count = generate::size(random);
    let ids = generate::ids(random, count);
    random.pick(makes)(random, &ids)
}

/// So many random states, each asked about an id; of one in four the subject's own `simple` is asked too.
fn many(comparison: &mut Comparison, random: &mut Random, states: usize, make: impl Fn(&mut Random) -> State) -> Compared {
    for _ in 0..states {
        let state = make(random);
        let id = generate::id_asked(random, &state);
        comparison.unplug(&state, id, random.one_in(4))?;
    }
    Ok(())
}

// ** What the entry returns

/// "The lowest number that applies is given."
pub fn words(comparison: &mut Comparison, random: &mut Random, size: Size) -> Compared {
    lengths(comparison)?;
    unholdable_words(comparison, random, size)?;
    any_words(comparison, random, size)
}

/// A state of another length is 1, whatever its words and the verdict; a verdict that is too short 2, whatever the words. A longer verdict
/// keeps its words.
fn lengths(comparison: &mut Comparison) -> Compared {
    for (word, holdable) in [(0, 0), (u64::MAX, 4)] {
        let words = [word; 2_000];
        for state_len in [0, 1, STATE_WORDS - 1, STATE_WORDS + 1, words.len()] {
            for verdict_len in [0, 1, VERDICT_WORDS, VERDICT_WORDS + 1] {
                returns(comparison, 1, &words[..state_len], verdict_len)?;
            }
        }
        for verdict_len in [0, 1] {
            returns(comparison, 2, &words[..STATE_WORDS], verdict_len)?;
        }
        for verdict_len in [VERDICT_WORDS, VERDICT_WORDS + 1, 1_000] {
            returns(comparison, holdable, &words[..STATE_WORDS], verdict_len)?;
        }
    }
    Ok(())
}

/// Each place that holds a flag or a record's state: the largest number that it can hold is taken, the next is 4, also in a record that is
/// not used.
fn unholdable_words(comparison: &mut Comparison, random: &mut Random, size: Size) -> Compared {
    let given = generate::in_order(random, &[1, 2, 3]);
    for (word, largest) in narrow_words_of_state() {
        let mut state = given;
        state.words_mut()[word] = largest;
        returns(comparison, 0, state.words(), VERDICT_WORDS + 1)?;
        comparison.unplug(&state, 1, true)?;
        let beyond = [largest + 1, largest + 256, u64::MAX];
        for &value in &beyond[..size.pick(1, 3, 3)] {
            state.words_mut()[word] = value;
            returns(comparison, 4, state.words(), VERDICT_WORDS)?;
        }
    }
    Ok(())
}

/// Every other word is any number.
fn any_words(comparison: &mut Comparison, random: &mut Random, size: Size) -> Compared {
    let narrow = narrow_words_of_state();
    for _ in 0..size.pick(100, 1_000, 20_000) {
        let mut state = State::zero();
        state.words_mut().iter_mut().for_each(|word| *word = random.next());
        for &(word, largest) in &narrow {
            state.words_mut()[word] = random.next() % (largest + 1);
        }
        comparison.unplug(&state, random.number(), true)?;
    }
    Ok(())
}

fn returns(comparison: &mut Comparison, expected: u64, state: &[u64], verdict_len: usize) -> Compared {
    let lent: Vec<u64> = (0..verdict_len as u64).map(|place| (1 << 40) + place).collect();
    let returned = Returned { expected, given: state, lent: &lent, answer: VERDICT_WORDS };
    let input = || format!("unplug of a state of {} words, a verdict of {verdict_len}", state.len());
    returned.compared(comparison, |subject, state, verdict| subject.unplug(state, 1, verdict), input)
}
