//! Where two controllers disagree, said a second time and read back: from the sentences of document 02, l), and not from the
//! proved code. What is said is what the model answers. The reader has the first message and the lines, and states the second's
//! sets and flag.
//!
//! Messages are read by message.rs. Nothing here is made to be fast; plain.rs is.

pub mod plain;

use crate::message;
use crate::model::{ConfState, Model, Set, Wrong};

/// "It reads two files of at most 32 KiB each."
pub const LONGEST_FILE: usize = 32 << 10;

/// "32, file unreadable or too long"
pub const LONG_FILE: u64 = 32;

/// What the entry returns where the lines are longer than the bytes lent for them.
pub const NO_ROOM_FOR_LINES: u64 = message::REFUSED + 100;

/// The longest lines: 64 ids of 20 digits in each list of each message, none in two, and the flag.
pub const LONGEST_LINES: usize = 2 * 64 * (4 * (20 + 1 + 4 + 4 + 1) + 6 + 15 + 8 + 13) + 25;
const _: () = assert!(LONGEST_LINES == 20_761);

/// "Set names are voters, voters_outgoing, learners, learners_next, in that order"
pub const NAMES: [&str; 4] = ["voters", "voters_outgoing", "learners", "learners_next"];

/// What an id that is in no set stands in.
const NONE: &str = "none";

const FLAG: &str = "auto_leave";

/// Which of the sets an id is in.
pub type Standing = [bool; 4];

/// What a message says, "each list taken as a set", in the order of the names.
#[derive(Clone, Default, PartialEq, Eq)]
pub struct Said {
    pub sets: [Set; 4],
    pub auto_leave: bool,
}

impl Said {
    pub fn of(lists: &ConfState) -> Said {
        let sets = named_lists(lists).map(|list| list.iter().copied().collect());
        Said { sets, auto_leave: lists.auto_leave }
    }

    /// What these bytes say; nothing where they are refused.
    pub fn by(bytes: &[u8]) -> Said {
        Said::of(&message::read(&Model::PAPER, bytes).1)
    }

    pub fn standing(&self, id: u64) -> Standing {
        self.sets.each_ref().map(|set| set.contains(&id))
    }

    /// Puts an id into these sets, and takes it out of the others.
    pub fn stand(&mut self, id: u64, standing: Standing) {
        for (set, inside) in self.sets.iter_mut().zip(standing) {
            if inside {
                set.insert(id);
            } else {
                set.remove(&id);
            }
        }
    }

    /// Every id that is in a set.
    pub fn ids(&self) -> Set {
        self.sets.iter().flatten().copied().collect()
    }

    /// Ascending lists.
    pub fn lists(&self) -> ConfState {
        let [voters, voters_outgoing, learners, learners_next] = self.sets.each_ref().map(|set| set.iter().copied().collect());
        ConfState { voters, learners, voters_outgoing, learners_next, auto_leave: self.auto_leave }
    }
}

fn named_lists(lists: &ConfState) -> [&Vec<u64>; 4] {
    [&lists.voters, &lists.voters_outgoing, &lists.learners, &lists.learners_next]
}

// ** Said

/// The lines of two messages, or the number of the refusal.
pub fn compared(model: &Model, first: &[u8], second: &[u8]) -> Result<String, u64> {
    let [(one, first_lists), (other, second_lists)] = [first, second].map(|bytes| message::read(&Model::PAPER, bytes));
    match refusal(model, [first.len(), second.len()], [one, other]) {
        0 => Ok(lines(model, &first_lists, &second_lists)),
        number => Err(number),
    }
}

/// "Refusals: 32, file unreadable or too long; then those of k) for the first file, then the second." 32 for either file comes
/// before any fault inside one.
fn refusal(model: &Model, lengths: [usize; 2], numbers: [u64; 2]) -> u64 {
    let longest = if model.has(Wrong::OneMoreByteTaken) { LONGEST_FILE + 1 } else { LONGEST_FILE };
    let asked = if model.has(Wrong::FirstLengthAlone) { &lengths[..1] } else { &lengths };
    let long = if asked.iter().any(|&length| length > longest) { LONG_FILE } else { 0 };
    let [first, second] = numbers;
    let order = if model.has(Wrong::SecondRefusedFirst) {
        [long, second, first]
    } else if model.has(Wrong::FaultsBeforeLengths) {
        [first, second, long]
    } else {
        [long, first, second]
    };
    order.into_iter().find(|&number| number != 0).unwrap_or(0)
}

/// "for every id whose standing differs the id and both standings as the set names it is in, ids ascending, then the flag if it
/// differs"
fn lines(model: &Model, first: &ConfState, second: &ConfState) -> String {
    let [one, other] = [first, second].map(Said::of);
    let mut lines = vec![];
    for id in ids(model, first, second) {
        let [left, right] = [&one, &other].map(|said| said.standing(id));
        if differs(model, left, right) || listed_otherwise(model, first, second, id) {
            let again = if model.has(Wrong::LeftSaidTwice) { left } else { right };
            lines.push(format!("{id} {} -> {}\n", named(model, left), named(model, again)));
        }
    }
    if one.auto_leave != other.auto_leave {
        let place = if model.has(Wrong::FlagLineFirst) { 0 } else { lines.len() };
        lines.insert(place, format!("{FLAG} {} -> {}\n", one.auto_leave, other.auto_leave));
    }
    lines.concat()
}

/// "every id", in the order of the lines. Id 0 is one.
fn ids(model: &Model, first: &ConfState, second: &ConfState) -> Vec<u64> {
    let as_they_come = || [first, second].into_iter().flat_map(named_lists).flatten().copied();
    let ids: Set = as_they_come().filter(|&id| id != 0 || !model.has(Wrong::ZeroIsNoId)).collect();
    if model.has(Wrong::IdsDescending) {
        return ids.into_iter().rev().collect();
    }
    if model.has(Wrong::IdsAsTheyCome) {
        let mut met = Set::new();
        return as_they_come().filter(|&id| met.insert(id)).collect();
    }
    if model.has(Wrong::IdsOfTheFirstAlone) {
        return Said::of(first).ids().into_iter().collect();
    }
    ids.into_iter().collect()
}

fn differs(model: &Model, left: Standing, right: Standing) -> bool {
    let kept = left.iter().zip(right).any(|(&left, right)| left && right);
    left != right && !(kept && model.has(Wrong::OneSetKeptIsEnough))
}

/// "as the set names it is in", "and joined by `+`"
fn named(model: &Model, standing: Standing) -> String {
    let order = if model.has(Wrong::LearnersBeforeOutgoing) { [0, 2, 1, 3] } else { [0, 1, 2, 3] };
    let names: Vec<&str> = order.into_iter().filter(|&set| standing[set]).map(|set| NAMES[set]).collect();
    match names[..] {
        [] => NONE.to_string(),
        [first, ..] if model.has(Wrong::FirstSetAlone) => first.to_string(),
        _ => names.join("+"),
    }
}

/// Only wrong rules look at this: whether an id has another place in a list, or another number of them.
fn listed_otherwise(model: &Model, first: &ConfState, second: &ConfState, id: u64) -> bool {
    let places = |list: &Vec<u64>| -> Vec<usize> { (0..list.len()).filter(|&place| list[place] == id).collect() };
    let [one, other] = [first, second].map(|lists| named_lists(lists).map(places));
    let by_place =
        model.has(Wrong::OrderCounts) && one.each_ref().map(|list| list.first()) != other.each_ref().map(|list| list.first());
    let by_count = model.has(Wrong::RepeatsCount) && one.each_ref().map(Vec::len) != other.each_ref().map(Vec::len);
    by_place || by_count
}

// ** Read back

/// "a reader of the lines with the first message can state the second's sets exactly": what the second says, or what no
/// comparison with the first would have said.
pub fn read_back(first: &Said, text: &str) -> Result<Said, String> {
    let mut second = first.clone();
    let mut before = None;
    for line in text.split_inclusive('\n') {
        let refused = |why: &str| format!("{line:?}: {why}");
        let line = Line::of(line).ok_or_else(|| refused("no line has this form"))?;
        if before.is_some_and(|before| before >= line.place()) {
            return Err(refused("it comes too late"));
        }
        before = Some(line.place());
        line.take(first, &mut second).map_err(refused)?;
    }
    Ok(second)
}

/// What a line says.
enum Line {
    Id { id: u64, left: Standing, right: Standing },
    Flag { left: bool, right: bool },
}

/// Ids ascending, and then the flag.
type Place = (bool, u64);

impl Line {
    fn of(text: &str) -> Option<Line> {
        let (left, right) = text.strip_suffix('\n')?.split_once(" -> ")?;
        let (name, left) = left.split_once(' ')?;
        if name == FLAG {
            return Some(Line::Flag { left: left.parse().ok()?, right: right.parse().ok()? });
        }
        let id: u64 = name.parse().ok()?;
        // no sign, and no zero in front
        let said_so = id.to_string() == name;
        Some(Line::Id { id, left: standing(left)?, right: standing(right)? }).filter(|_| said_so)
    }

    fn place(&self) -> Place {
        match *self {
            Line::Id { id, .. } => (false, id),
            Line::Flag { .. } => (true, 0),
        }
    }

    fn take(&self, first: &Said, second: &mut Said) -> Result<(), &'static str> {
        let (left_is_so, differ) = match *self {
            Line::Id { id, left, right } => {
                second.stand(id, right);
                (left == first.standing(id), left != right)
            }
            Line::Flag { left, right } => {
                second.auto_leave = right;
                (left == first.auto_leave, left != right)
            }
        };
        match (left_is_so, differ) {
            (false, _) => Err("the first message says otherwise"),
            (_, false) => Err("it says the same on both sides"),
            _ => Ok(()),
        }
    }
}

/// The sets that are named: each once, in their order.
fn standing(text: &str) -> Option<Standing> {
    let mut standing = [false; 4];
    if text == NONE {
        return Some(standing);
    }
    let mut left = 0;
    for name in text.split('+') {
        let place = left + NAMES[left..].iter().position(|known| *known == name)?;
        standing[place] = true;
        left = place + 1;
    }
    Some(standing)
}

/// The lines with left and right exchanged: those of the same two messages the other way round. None where a line has another
/// form.
pub fn mirrored(text: &str) -> Option<String> {
    let mirrored = |line: &str| {
        let (left, right) = line.strip_suffix('\n')?.split_once(" -> ")?;
        let (name, left) = left.split_once(' ')?;
        Some(format!("{name} {right} -> {left}\n"))
    };
    text.split_inclusive('\n').map(mirrored).collect()
}
