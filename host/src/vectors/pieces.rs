//! The bytes of a case in pieces: zeros, small words and what stood before take little room.

use std::collections::HashMap;

const BYTES: u8 = 0;
const SMALL_WORDS: u8 = 1;
const COPY: u8 = 2;

/// A count and a distance have two bytes.
const LARGEST: usize = 65_535;

const WORD: usize = 8;

/// A copy takes five bytes, and begins a new piece after it: it has to save that.
const SHORTEST_COPY: usize = 9;
const SHORTEST_COPY_OF_WORDS: usize = 8 * WORD;

/// A request's word 1 stands in the reply at word 3 where the state is given back: so many bytes more than the request's length lie between.
const GIVEN_BACK: usize = 2 * WORD;

struct Piece {
    kind: u8,
    count: usize,
    /// what follows the count
    bytes: Vec<u8>,
}

// ** Writing

/// `given` is the length of the first part, to which the second part refers back.
pub fn pack(bytes: &[u8], given: usize) -> Vec<u8> {
    let mut pieces: Vec<Piece> = vec![];
    let mut last = HashMap::new();
    let mut at = 0;
    while at < bytes.len() {
        let in_words = matches!(pieces.last(), Some(piece) if piece.kind == SMALL_WORDS);
        let small = is_small_word(bytes, at) && (in_words || is_small_word(bytes, at + WORD));
        let shortest = if small { SHORTEST_COPY_OF_WORDS } else { SHORTEST_COPY };
        let near = bytes.get(at..at + WORD).and_then(|word| last.get(word)).map(|place| at - place);
        let taken = match longest_copy(bytes, at, [near, Some(1), Some(given + GIVEN_BACK)]) {
            (count, distance) if count >= shortest => {
                pieces.push(Piece { kind: COPY, count, bytes: (distance as u16).to_le_bytes().to_vec() });
                count
            }
            _ if small => {
                put(&mut pieces, SMALL_WORDS, bytes[at]);
                WORD
            }
            _ => {
                put(&mut pieces, BYTES, bytes[at]);
                1
            }
        };
        for place in at..(at + taken).min((bytes.len() + 1).saturating_sub(WORD)) {
            last.insert(&bytes[place..place + WORD], place);
        }
        at += taken;
    }
    pieces.iter().flat_map(written).collect()
}

fn is_small_word(bytes: &[u8], at: usize) -> bool {
    bytes.get(at + 1..at + WORD).is_some_and(|rest| rest.iter().all(|&byte| byte == 0))
}

/// The longest of the copies from these distances: its count and its distance.
fn longest_copy(bytes: &[u8], at: usize, distances: [Option<usize>; 3]) -> (usize, usize) {
    let fits = |distance: &usize| *distance <= at.min(LARGEST);
    let count =
        |distance: usize| (at..bytes.len()).take_while(|&place| bytes[place] == bytes[place - distance]).take(LARGEST).count();
    let copies = distances.into_iter().flatten().filter(fits).map(|distance| (count(distance), distance));
    copies.max().unwrap_or((0, 0))
}

/// A byte more in the last piece, or in a new one.
fn put(pieces: &mut Vec<Piece>, kind: u8, byte: u8) {
    match pieces.last_mut() {
        Some(piece) if piece.kind == kind && piece.count < LARGEST => {
            piece.count += 1;
            piece.bytes.push(byte);
        }
        _ => pieces.push(Piece { kind, count: 1, bytes: vec![byte] }),
    }
}

fn written(piece: &Piece) -> Vec<u8> {
    [&[piece.kind][..], &(piece.count as u16).to_le_bytes(), &piece.bytes].concat()
}

// ** Reading

pub fn unpack(mut pieces: &[u8]) -> Vec<u8> {
    let mut out: Vec<u8> = vec![];
    while let [kind, low, high, rest @ ..] = pieces {
        let count = usize::from(u16::from_le_bytes([*low, *high]));
        let (taken, rest) = rest.split_at(if *kind == COPY { 2 } else { count });
        match *kind {
            BYTES => out.extend(taken),
            SMALL_WORDS => out.extend(taken.iter().flat_map(|&byte| u64::from(byte).to_le_bytes())),
            _ => {
                let distance = usize::from(u16::from_le_bytes([taken[0], taken[1]]));
                (0..count).for_each(|_| out.push(out[out.len() - distance]));
            }
        }
        pieces = rest;
    }
    out
}
