//! A `ConfState` as it travels, read and written a second time: from the public Protocol Buffers encoding document and from document 02,
//! k), and not from the proved code. It is what the model answers.
//!
//! A message is split into its fields. Of each field every fault is listed, and the least one of the first field that has any is the
//! answer: "The first faulty field wins, and within it the lower number." Nothing here is made to be fast; plain.rs is.

pub mod plain;

use crate::model::{ConfState, Model, Wrong};
use crate::words::CAPACITY;

/// "28, cut short", "29, a varint over ten bytes or 64 bits, wire type 3, 4, 6 or 7, a known field under a wrong wire type, or field number 0
/// or over 2^29 − 1", "30, a list over 64".
pub const CUT_SHORT: u64 = 28;
pub const NO_FIELD: u64 = 29;
pub const LONG_LIST: u64 = 30;

/// What the reader returns where the words lent are no CONFSTATE.
pub const UNREAD: u64 = 100;

/// What the writer returns is the message's length, or this and the number of a refusal: "31, output too small".
pub const REFUSED: u64 = 1 << 32;
pub const NO_ROOM_FOR_IT: u64 = REFUSED + 31;

/// The longest message that is written: four lists, each with its tag, a length of two bytes and 64 numbers of ten, and the flag.
pub const LONGEST_MESSAGE: usize = 4 * (1 + 2 + 64 * 10) + 2;

const LARGEST_FIELD: u64 = (1 << 29) - 1;

// ** Bytes into fields

/// The bytes of a varint: up to the first one whose top bit is not set, and with it. Where there is none, it is cut.
#[derive(Clone, Copy)]
struct Varint<'a> {
    bytes: &'a [u8],
}

fn goes_on(byte: &u8) -> bool {
    byte & 0x80 != 0
}

impl<'a> Varint<'a> {
    /// Takes the one at the front.
    fn take(rest: &mut &'a [u8]) -> Varint<'a> {
        let bytes = rest.split_inclusive(|byte| !goes_on(byte)).next().unwrap_or_default();
        *rest = &rest[bytes.len()..];
        Varint { bytes }
    }

    /// Seven bits of each byte, the lowest first.
    fn value(&self) -> u64 {
        self.bytes.iter().rev().fold(0, |value, byte| value << 7 | u64::from(byte & 0x7f))
    }

    fn cut(&self) -> bool {
        self.bytes.last().is_none_or(goes_on)
    }

    /// Nine bytes have 63 bits, so that the tenth has one.
    fn too_large(&self, model: &Model) -> bool {
        let over_64_bits = self.bytes.get(9).is_some_and(|&tenth| tenth > 1);
        self.bytes.len() > 10 || (over_64_bits && !model.has(Wrong::TenthByteLetIn))
    }

    fn faults(&self, model: &Model) -> Vec<u64> {
        let taken_all_the_same = model.has(Wrong::CutVarintTaken) && !self.bytes.is_empty();
        listed([(self.cut() && !taken_all_the_same, CUT_SHORT), (self.too_large(model), NO_FIELD)])
    }
}

/// The numbers of the faults that are there.
fn listed<const COUNT: usize>(faults: [(bool, u64); COUNT]) -> Vec<u64> {
    faults.into_iter().filter(|(there, _)| *there).map(|(_, number)| number).collect()
}

/// What is behind a tag, by its wire type.
enum Content<'a> {
    /// 0
    Number(Varint<'a>),
    /// 1 and 5: eight bytes and four, of which so many are missing
    Fixed { missing: u64 },
    /// 2: a length, and so many bytes, of which so many are missing
    Bytes { length: Varint<'a>, bytes: &'a [u8], missing: u64 },
    /// 3, 4, 6 and 7: where such a field ends is not looked for
    Endless,
    /// of a tag that is none, of which nothing is known
    Unknown,
}

struct Field<'a> {
    tag: Varint<'a>,
    content: Content<'a>,
}

/// The fields of a message, in their order. What follows a field whose end is not known belongs to no field.
fn fields<'a>(model: &Model, mut rest: &'a [u8]) -> Vec<Field<'a>> {
    let mut fields = vec![];
    while !rest.is_empty() {
        let tag = Varint::take(&mut rest);
        let content = if tag.faults(model).is_empty() { content(model, tag, &mut rest) } else { Content::Unknown };
        let field = Field { tag, content };
        if !field.has_an_end(model) {
            rest = &[];
        }
        fields.push(field);
    }
    fields
}

fn content<'a>(model: &Model, tag: Varint, rest: &mut &'a [u8]) -> Content<'a> {
    match tag.value() % 8 {
        0 => Content::Number(Varint::take(rest)),
        1 => Content::Fixed { missing: take(8, rest).1 },
        5 => Content::Fixed { missing: take(4, rest).1 },
        2 => {
            let length = Varint::take(rest);
            let wanted = if length.faults(model).is_empty() { length.value() } else { 0 };
            let (bytes, missing) = take(wanted, rest);
            Content::Bytes { length, bytes, missing }
        }
        _ => Content::Endless,
    }
}

/// Takes so many bytes from the front, or all that are there: these, and how many are missing.
fn take<'a>(wanted: u64, rest: &mut &'a [u8]) -> (&'a [u8], u64) {
    let (bytes, after) = rest.split_at(wanted.min(rest.len() as u64) as usize);
    *rest = after;
    (bytes, wanted - bytes.len() as u64)
}

// ** The faults of a field

/// "voters 1, learners 2, voters_outgoing 3, learners_next 4, auto_leave 5"
enum Meaning {
    List(usize),
    Flag,
    None,
}

impl<'a> Field<'a> {
    fn number(&self) -> u64 {
        self.tag.value() / 8
    }

    fn meaning(&self) -> Meaning {
        match self.number() {
            number @ 1..=4 => Meaning::List(number as usize - 1),
            5 => Meaning::Flag,
            _ => Meaning::None,
        }
    }

    fn has_an_end(&self, model: &Model) -> bool {
        match self.content {
            Content::Number(number) => number.faults(model).is_empty(),
            Content::Fixed { missing } => missing == 0,
            Content::Bytes { length, missing, .. } => length.faults(model).is_empty() && missing == 0,
            Content::Endless | Content::Unknown => false,
        }
    }

    /// The numbers of a list, single or packed, or that of a flag. A packed one ends with its field, or is cut there.
    fn numbers(&self) -> Vec<Varint<'a>> {
        match self.content {
            Content::Number(number) => vec![number],
            Content::Bytes { bytes, .. } => bytes.split_inclusive(|byte| !goes_on(byte)).map(|bytes| Varint { bytes }).collect(),
            _ => vec![],
        }
    }

    /// Every fault of the field, behind what was read before it.
    fn faults(&self, model: &Model, read: &Read) -> Vec<u64> {
        if matches!(self.content, Content::Unknown) {
            return self.tag.faults(model);
        }
        [self.faults_of_content(model), self.faults_of_number(model), self.faults_of_meaning(model, read)].concat()
    }

    fn faults_of_content(&self, model: &Model) -> Vec<u64> {
        match self.content {
            Content::Number(number) => number.faults(model),
            Content::Fixed { missing } => listed([(missing > 0, CUT_SHORT)]),
            Content::Bytes { length, missing, .. } => [length.faults(model), listed([(missing > 0, CUT_SHORT)])].concat(),
            Content::Endless => vec![NO_FIELD],
            Content::Unknown => vec![],
        }
    }

    fn faults_of_number(&self, model: &Model) -> Vec<u64> {
        let zero = self.number() == 0 && !model.has(Wrong::FieldZeroLetIn);
        listed([(zero || self.number() > LARGEST_FIELD, NO_FIELD)])
    }

    fn faults_of_meaning(&self, model: &Model, read: &Read) -> Vec<u64> {
        match (self.meaning(), &self.content) {
            (Meaning::List(_), Content::Bytes { .. }) if model.has(Wrong::UnpackedOnly) => vec![NO_FIELD],
            (Meaning::List(list), Content::Number(_) | Content::Bytes { .. }) => {
                let most = if model.has(Wrong::SixtyFiveLetIn) { CAPACITY + 1 } else { CAPACITY };
                let in_all = read.lists[list].len() + self.numbers().len();
                let of_numbers = self.numbers().iter().flat_map(|number| number.faults(model)).collect();
                [of_numbers, listed([(in_all > most, LONG_LIST)])].concat()
            }
            (Meaning::Flag, Content::Number(_)) => vec![],
            (Meaning::List(_) | Meaning::Flag, _) => vec![NO_FIELD],
            (Meaning::None, _) => listed([(model.has(Wrong::UnknownFieldsRefused), NO_FIELD)]),
        }
    }
}

// ** Reading

/// What was read so far: four lists, and every flag.
#[derive(Default)]
struct Read {
    lists: [Vec<u64>; 4],
    flags: Vec<u64>,
}

impl Read {
    fn take(&mut self, model: &Model, field: &Field) {
        let values = field.numbers().into_iter().map(|number| number.value());
        match field.meaning() {
            Meaning::List(list) => {
                if model.has(Wrong::LastListWins) {
                    self.lists[list].clear();
                }
                self.lists[list].extend(values);
            }
            Meaning::Flag => self.flags.extend(values),
            Meaning::None => {}
        }
    }

    /// "lets the last flag decide"
    fn conf_state(self, model: &Model) -> ConfState {
        let decides = if model.has(Wrong::FirstFlagDecides) { self.flags.first() } else { self.flags.last() };
        let auto_leave = decides.is_some_and(|&flag| flag != 0);
        let [voters, learners, voters_outgoing, learners_next] = self.lists;
        ConfState { voters, learners, voters_outgoing, learners_next, auto_leave }
    }
}

/// The message's lists and flag with number 0; else the refusal, and "A refused reader gives empty lists and a false flag".
pub fn read(model: &Model, bytes: &[u8]) -> (u64, ConfState) {
    let mut read = Read::default();
    for field in fields(model, bytes) {
        if let Some(number) = decisive(model, &field.faults(model, &read)) {
            let kept = model.has(Wrong::RefusedListsKept);
            return (number, if kept { read.conf_state(model) } else { ConfState::default() });
        }
        read.take(model, &field);
    }
    (0, read.conf_state(model))
}

/// "within it the lower number"
fn decisive(model: &Model, faults: &[u64]) -> Option<u64> {
    let order = if model.has(Wrong::ThirtyBeforeTwentyNine) {
        [CUT_SHORT, LONG_LIST, NO_FIELD]
    } else if model.has(Wrong::TwentyNineBeforeTwentyEight) {
        [NO_FIELD, CUT_SHORT, LONG_LIST]
    } else {
        [CUT_SHORT, NO_FIELD, LONG_LIST]
    };
    order.into_iter().find(|number| faults.contains(number))
}

// ** Writing

/// The shortest varint of a number.
pub fn varint(number: u64) -> Vec<u8> {
    let bits = 64 - number.leading_zeros();
    padded(number, bits.div_ceil(7).max(1) as usize)
}

/// A varint of so many bytes: the number's groups of seven bits, the lowest first and zeros behind them, each but the last with its top bit
/// set.
pub fn padded(number: u64, length: usize) -> Vec<u8> {
    let group = |place: usize| number.checked_shr(7 * place as u32).unwrap_or(0) as u8 & 0x7f;
    (0..length).map(|place| group(place) | if place + 1 < length { 0x80 } else { 0 }).collect()
}

/// A tag.
pub fn tag(field: u64, wire_type: u64) -> Vec<u8> {
    varint(field << 3 | wire_type)
}

/// A field of wire type 2.
pub fn delimited(field: u64, bytes: &[u8]) -> Vec<u8> {
    [tag(field, 2), varint(bytes.len() as u64), bytes.to_vec()].concat()
}

/// A field of wire type 0.
pub fn single(field: u64, number: u64) -> Vec<u8> {
    [tag(field, 0), varint(number)].concat()
}

/// The numbers of a list in one field.
pub fn packed(field: u64, numbers: &[u64]) -> Vec<u8> {
    delimited(field, &numbers.iter().flat_map(|&number| varint(number)).collect::<Vec<_>>())
}

/// "The writer has one encoding for each message": fields in the order of their numbers, a list packed, and neither an empty list nor a
/// false flag.
pub fn written(model: &Model, lists: &ConfState) -> Vec<u8> {
    let numbered = (1..).zip([&lists.voters, &lists.learners, &lists.voters_outgoing, &lists.learners_next]);
    let there = numbered.filter(|(_, list)| !list.is_empty() || model.has(Wrong::WritesEmptyLists));
    let list = |(field, list): (u64, &Vec<u64>)| match model.has(Wrong::WritesSingly) {
        true => list.iter().flat_map(|&number| single(field, number)).collect(),
        false => packed(field, list),
    };
    let flag = if lists.auto_leave { single(5, 1) } else { vec![] };
    there.flat_map(list).chain(flag).collect()
}
