//! The format of VECTORS.md: writing and reading.

use super::pieces::{pack, unpack};

/// The file's name for itself.
const NAME: &[u8; 8] = b"dimevec2";

/// The words before a case's pieces.
const HEAD: usize = 6;

/// The most bytes that the pieces of a case take: the program's buffer.
const LARGEST_CASE: usize = 65_536;

#[derive(Clone, Copy, PartialEq, Eq)]
pub enum Entry {
    Call,
    Script,
}

pub struct Case {
    pub entry: Entry,
    /// answered by the Rust; else by the paper's rules alone
    pub by_rust: bool,
    /// the request or the script
    pub given: Vec<u8>,
    /// what the lent bytes have to be after the call
    pub lent: Vec<u8>,
    /// what the entry has to return
    pub value: u64,
}

// ** Writing

impl Case {
    fn written(&self) -> Vec<u8> {
        let pieces = pack(&[&self.given[..], &self.lent].concat(), self.given.len());
        assert!(pieces.len() <= LARGEST_CASE, "the program has room for it");
        let (entry, by_rust) = (self.entry as u64, u64::from(self.by_rust));
        let head: [u64; HEAD] =
            [pieces.len() as u64, entry, by_rust, self.given.len() as u64, self.lent.len() as u64, self.value];
        [head.map(u64::to_le_bytes).concat(), pieces].concat()
    }
}

pub fn file(cases: &[Case]) -> Vec<u8> {
    let written: Vec<u8> = cases.iter().flat_map(Case::written).collect();
    [&NAME[..], &(cases.len() as u64).to_le_bytes(), &written].concat()
}

// ** Reading

pub fn cases(file: &[u8]) -> Vec<Case> {
    let mut reader = Reader { bytes: file };
    assert_eq!(reader.take(8), NAME, "a file of vectors");
    let cases = (0..reader.word()).map(|_| reader.case()).collect();
    assert!(reader.bytes.is_empty(), "nothing follows the last case");
    cases
}

struct Reader<'a> {
    bytes: &'a [u8],
}

impl<'a> Reader<'a> {
    fn take(&mut self, count: usize) -> &'a [u8] {
        let (taken, rest) = self.bytes.split_at(count);
        self.bytes = rest;
        taken
    }

    fn word(&mut self) -> u64 {
        u64::from_le_bytes(self.take(8).try_into().expect("eight bytes"))
    }

    fn case(&mut self) -> Case {
        let [size, entry, by_rust, given, lent, value]: [u64; HEAD] = std::array::from_fn(|_| self.word());
        let mut bytes = unpack(self.take(size as usize));
        assert_eq!(bytes.len() as u64, given + lent, "the pieces give as many bytes as the head says");
        let lent = bytes.split_off(given as usize);
        let entry = if entry == Entry::Call as u64 { Entry::Call } else { Entry::Script };
        Case { entry, by_rust: by_rust == 1, given: bytes, lent, value }
    }
}
