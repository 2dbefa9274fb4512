//! Stand-in for src/quorum/majority.rs: a set of voters, with what the text asks of it.
#![warn(clippy::all)]

use super::{AckedIndexer, VoteResult};
use crate::{DefaultHashBuilder, HashSet};
use std::ops::{Deref, DerefMut};

#[derive(Clone, Debug, Default, PartialEq, Eq)]
pub struct Configuration {
    voters: HashSet<u64>,
}

impl Configuration {
    pub fn new(voters: HashSet<u64>) -> Configuration {
        Configuration { voters }
    }

    pub fn with_capacity(capacity: usize) -> Configuration {
        Configuration { voters: HashSet::with_capacity_and_hasher(capacity, DefaultHashBuilder::default()) }
    }

    /// The voters, in the set's own order.
    pub fn raw_slice(&self) -> Vec<u64> {
        self.voters.iter().cloned().collect()
    }

    /// Named by the text; no part of what is compared.
    pub fn committed_index(&self, _group_commit: bool, _indexer: &impl AckedIndexer) -> (u64, bool) {
        unimplemented!("commitment is no part of the comparison")
    }

    /// Named by the text; no part of what is compared.
    pub fn vote_result(&self, _vote: impl Fn(u64) -> Option<bool>) -> VoteResult {
        unimplemented!("votes are no part of the comparison")
    }
}

impl Deref for Configuration {
    type Target = HashSet<u64>;

    #[inline]
    fn deref(&self) -> &HashSet<u64> {
        &self.voters
    }
}

impl DerefMut for Configuration {
    #[inline]
    fn deref_mut(&mut self) -> &mut HashSet<u64> {
        &mut self.voters
    }
}
